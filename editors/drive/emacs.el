;;; emacs.el --- Emacs debugs PL/0 programs -*- lexical-binding: t; -*-

;; usage: emacs --batch --load editors/drive/emacs.el -- SESSION COMMAND..
;;
;; SESSION is factorial, back, fault, endless, refused or mistake, which wants pl0 on the path; or own, of which the adapter is
;; stack_adapter, and the settings are those of docs/YOUR_OWN_ADAPTER.md.  COMMAND starts the adapter, or the proxy before it.
;; Prints what Emacs shows, line by line, and ends with status 0 at the end of the session.

(require 'package)
(package-initialize)

(defconst drive-folder (expand-file-name "../.." (file-name-directory load-file-name)))
(defconst drive-limit (string-to-number (or (getenv "DRIVE_SECONDS") "30")) "How many seconds Emacs waits for anything.")

;; What the user has stored stays as it is.
(let ((store (make-temp-file "pl0dap" t)))
  (setq lsp-session-file (expand-file-name "session" store)
        dap-breakpoints-file (expand-file-name "breakpoints" store)))
(defconst drive-session (cadr (member "--" command-line-args)))
(defconst drive-command (cddr (member "--" command-line-args)))
(setq command-line-args-left nil)

(defun drive-load-own ()
  "Evaluate the settings that the page has for an adapter of one's own, with the adapter's command for its path."
  (with-temp-buffer
    (insert-file-contents (expand-file-name "docs/YOUR_OWN_ADAPTER.md" drive-folder))
    (search-forward "(require 'dap-ui)")
    (delete-region (point-min) (match-beginning 0))
    (search-forward "```")
    (delete-region (match-beginning 0) (point-max))
    (goto-char (point-min))
    (search-forward "\"/path/to/mine\"")
    (replace-match (mapconcat #'prin1-to-string drive-command " ") t t)
    (eval-buffer)))

(if (equal drive-session "own")
    (drive-load-own)
  (require 'dap-ui)
  (load (expand-file-name "editors/emacs/pl0-dap.el" drive-folder) nil t)
  (setq pl0-dap-command drive-command))

(defun drive-show (form &rest values)
  "Print a line of what Emacs shows: VALUES in FORM."
  (princ (concat (apply #'format form values) "\n")))

(defmacro drive-wait (what condition)
  "Wait until CONDITION holds, which is WHAT."
  `(let ((until (+ (float-time) drive-limit)))
     (while (not ,condition)
       (when (> (float-time) until)
         (drive-show "waited %d seconds for %s" drive-limit ,what)
         (kill-emacs 1))
       (accept-process-output nil 0.01))))

(defun drive-frame ()
  "The frame that Emacs has selected."
  (dap--debug-session-active-frame (dap--cur-session)))

(defun drive-variables (scope)
  "The variables of SCOPE, as the view of locals asks for them."
  (mapconcat (lambda (variable) (format "%s = %s" (gethash "name" variable) (gethash "value" variable)))
             (gethash "variables" (dap-request (dap--cur-session) "variables"
                                               :variablesReference (gethash "variablesReference" scope)))
             ", "))

(defun drive-marked-line ()
  "The line that Emacs marks as the one of the stop; nil where none is."
  (when dap-ui--cursor-overlay
    (line-number-at-pos (overlay-start dap-ui--cursor-overlay))))

(defun drive-show-stop ()
  "Wait for a stop; print the marked line, the frames, and the variables of the newest one."
  (drive-wait "a stop" (and (drive-frame) (drive-marked-line)))
  (drive-show "line %d is marked" (drive-marked-line))
  (dolist (frame (gethash 1 (dap--debug-session-thread-stack-frames (dap--cur-session))))
    (drive-show "frame %s at line %d" (gethash "name" frame) (gethash "line" frame)))
  (dolist (scope (gethash "scopes" (dap-request (dap--cur-session) "scopes" :frameId (gethash "id" (drive-frame)))))
    (drive-show "scope %s: %s" (gethash "name" scope) (drive-variables scope))))

(defun drive-evaluate (expression)
  "Evaluate EXPRESSION, and print the result that Emacs shows."
  (let (shown)
    (cl-letf (((symbol-function 'dap-overlays--display-interactive-eval-result)
               (lambda (value &rest _) (setq shown value))))
      (dap-eval expression)
      (drive-wait "a value" shown))
    (drive-show "%s is %s" expression shown)))

(defun drive-start (program)
  "Open PROGRAM; print its mode."
  (find-file (expand-file-name program drive-folder))
  (drive-show "mode %s" mode-name)
  (goto-char (point-min)))

(defun drive-debug (&optional template)
  "Debug the program of the buffer by TEMPLATE, which is PL/0 where none is given."
  (dap-debug (copy-tree (cdr (assoc (or template "PL/0") dap-debug-template-configurations)))))

(defun drive-go-to-line (line)
  "Go to LINE of the program."
  (goto-char (point-min))
  (forward-line (1- line)))

(defun drive-breakpoint (line command text)
  "Set a breakpoint at LINE, call COMMAND by its name, and type TEXT."
  (drive-go-to-line line)
  (dap-breakpoint-add)
  (execute-kbd-macro (vconcat (kbd (format "M-x %s RET" command)) text (kbd "RET"))))

(defun drive-show-output ()
  "Print the buffer of the program's output."
  (with-current-buffer (dap--debug-session-output-buffer (dap--cur-session))
    (drive-show "output %s" (string-join (split-string (string-trim (buffer-string)) "\n") ", "))))

(defun drive-to-the-end ()
  "Let the program run to its end, and print its output."
  (dap-continue (dap--cur-session) 1)
  (drive-wait "the end" (not (dap--session-running (dap--cur-session))))
  (drive-show-output))

(defun drive-factorial ()
  "A breakpoint with a condition, a stop, two values, a step and the end."
  (drive-start "examples/factorial.pl0")
  (drive-breakpoint 9 "dap-breakpoint-condition" "k = 8")
  (drive-debug)
  (drive-show-stop)
  (drive-evaluate "k * (k - 1)")
  (drive-evaluate "k +")
  (dap-next (dap--cur-session))
  (drive-show-stop)
  (drive-to-the-end))

(defun drive-back ()
  "A log point and a breakpoint, a step back, back to the beginning, and the program's end."
  (drive-start "examples/factorial.pl0")
  (drive-breakpoint 9 "dap-breakpoint-log-message" "k is {k}, n {n}")
  (drive-breakpoint 10 "dap-breakpoint-condition" "k = 8")
  (drive-debug)
  (drive-show-stop)
  (drive-show-output)
  (call-interactively #'pl0-dap-step-back)
  (drive-show-stop)
  (call-interactively #'pl0-dap-reverse-continue)
  (drive-show-stop)
  (dap-continue (dap--cur-session) 1)
  (drive-show-stop)
  (drive-go-to-line 10)
  (call-interactively #'dap-breakpoint-delete)
  (drive-to-the-end))

(defun drive-fault ()
  "A program that can't take its next step: the name of the fault is shown."
  (drive-start "examples/overflow.pl0")
  (let (said)
    (cl-letf (((symbol-function 'lsp--error) (lambda (form &rest values) (setq said (apply #'format form values)))))
      (drive-debug)
      (drive-show-stop)
      (drive-wait "the fault's name" said))
    (drive-show "%s" (string-replace "\n" ": " said)))
  (dap-disconnect (dap--cur-session))
  (drive-rest 1)
  (drive-show-process "a second after disconnect"))

(defun drive-rest (seconds)
  "Let SECONDS pass."
  (let ((until (+ (float-time) seconds)))
    (while (< (float-time) until)
      (accept-process-output nil 0.1))))

(defun drive-pause ()
  "Stop the program that runs."
  (call-interactively #'pl0-dap-pause)
  (drive-show-stop))

(defun drive-continue ()
  "Let the program run for a second."
  (dap-continue (dap--cur-session) 1)
  (drive-rest 1)
  (drive-show (if (drive-frame) "it stopped" "it runs")))

(defun drive-show-process (when)
  "Print whether the adapter's process is there, WHEN, and whether Emacs counts the session as running."
  (drive-show "%s: the process is %s, the session %s" when (process-status (dap--debug-session-proc (dap--cur-session)))
              (dap--debug-session-state (dap--cur-session))))

(defun drive-endless ()
  "A loop without an end: two pauses, a breakpoint that is set while it runs, and a stop at the user's wish."
  (drive-start "demo/endless.pl0")
  (drive-debug)
  (drive-wait "the run" (eq 'running (dap--debug-session-state (dap--cur-session))))
  (drive-rest 1)
  (drive-pause)
  (drive-evaluate "6 * 7")
  (drive-continue)
  (dap-breakpoint-add)
  (drive-show-stop)
  (call-interactively #'dap-breakpoint-delete)
  (drive-continue)
  (drive-pause)
  (drive-continue)
  (dap-disconnect (dap--cur-session))
  (drive-rest 3)
  (drive-show-process "3 seconds after disconnect"))

(defun drive-refused ()
  "Breakpoints that are refused: it is shown why, and another one stops the program."
  (drive-start "examples/factorial.pl0")
  (drive-breakpoint 9 "dap-breakpoint-condition" "k == 8")
  (drive-breakpoint 10 "dap-breakpoint-hit-condition" ">= 3")
  (drive-breakpoint 11 "dap-breakpoint-log-message" "k is {m}")
  (drive-breakpoint 17 "dap-breakpoint-hit-condition" "1")
  (cl-letf (((symbol-function 'display-warning) (lambda (_type text &rest _) (drive-show "%s" text))))
    (drive-debug)
    (drive-show-stop)
    (drive-to-the-end)))

(defun drive-own ()
  "A condition, a log point, two stops, a value and a step in a program of the stack language, and a stop at the user's wish."
  (drive-start "crates/stack_adapter/data/countdown.stk")
  (drive-breakpoint 10 "dap-breakpoint-condition" "n")
  (drive-breakpoint 12 "dap-breakpoint-log-message" "n is {n}")
  (drive-debug "Mine")
  (drive-show-stop)
  (drive-evaluate "n")
  (dap-next (dap--cur-session))
  (drive-show-stop)
  (dap-continue (dap--cur-session) 1)
  (drive-show-stop)
  (drive-show-output)
  (dap-disconnect (dap--cur-session))
  (drive-rest 3)
  (drive-show-process "3 seconds after disconnect"))

(defun drive-shown-mistake ()
  "What Emacs says where the program of the buffer can't be launched, and where `next-error' goes; nil where it is launched."
  (condition-case said
      (progn (drive-debug) nil)
    (user-error
     (drive-wait "the place" (not compilation-in-progress))
     (next-error)
     (format "%s; the place is %d:%d" (string-replace buffer-file-name "FILE" (cadr said))
             (line-number-at-pos) (1+ (current-column))))))

(defun drive-mistake ()
  "A program with a mistake that isn't saved: Emacs saves it, says the mistake in words, and launches it once it is mended.
It warns of what is left."
  (let ((program (expand-file-name "typed.pl0" (make-temp-file "pl0dap" t))))
    (drive-start program)
    (insert "var x;\nbegin\n  x = 5;\n  ! x;\n  if x = 0 then;\nend.\n")
    (drive-show "%s" (or (drive-shown-mistake) "it is launched"))
    (drive-go-to-line 3)
    (search-forward "=")
    (replace-match ":=")
    (let (warned)
      (cl-letf (((symbol-function 'display-warning) (lambda (_type text &rest _) (setq warned text))))
        (drive-show "%s" (or (drive-shown-mistake) "it is launched"))
        (drive-wait "a warning" warned))
      (drive-show "%s" (string-replace program "FILE" warned)))
    (drive-wait "the end" (not (dap--session-running (dap--cur-session))))
    (drive-show-output)))

(pcase drive-session
  ("factorial" (drive-factorial))
  ("back" (drive-back))
  ("fault" (drive-fault))
  ("endless" (drive-endless))
  ("refused" (drive-refused))
  ("own" (drive-own))
  ("mistake" (drive-mistake))
  (_ (drive-show "no session %s" drive-session) (kill-emacs 4)))
(kill-emacs 0)
