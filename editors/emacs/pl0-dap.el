;;; pl0-dap.el --- PL/0 programs and their debugger -*- lexical-binding: t; -*-

;;; Commentary:

;; A mode for PL/0 programs, what dap-mode has to know of the adapter, and commands that run, trace and check a program.  Load this
;; file, open a program, and call `dap-debug'.

;;; Code:

(require 'dap-mode)
(require 'dap-ui)
(require 'dap-utils)

(defgroup pl0 nil "PL/0 programs." :group 'languages)

(defcustom pl0-dap-command '("pl0dap-listen" "-" "pl0dap")
  "The adapter and its arguments, behind the program that puts it into words and joins what a program writes without end."
  :type '(repeat string))

(defcustom pl0-command "pl0"
  "The program that runs, traces and checks PL/0 programs."
  :type 'string)

(defconst pl0-font-lock-keywords
  (let ((name "[[:alpha:]][[:alnum:]]*"))
    `((,(regexp-opt '("const" "var" "procedure" "call" "begin" "end" "if" "then" "while" "do" "odd") 'words)
       . font-lock-keyword-face)
      (,(format "\\<\\(?:procedure\\|call\\)\\s-+\\(%s\\)" name) 1 font-lock-function-name-face)
      ("!" . font-lock-builtin-face)
      ("\\<[0-9]+\\>" . font-lock-constant-face)))
  "What `pl0-mode' highlights.")

(defun pl0-keymap (commands)
  "A keymap in which each of COMMANDS has `C-c C-' and the first letter of its word for its key."
  (let ((map (make-sparse-keymap)))
    (pcase-dolist (`(,word . ,command) commands)
      (define-key map (kbd (format "C-c C-%c" (downcase (aref word 0)))) command))
    map))

(defconst pl0-commands
  '(("Debug" . dap-debug) ("Toggle breakpoint" . dap-breakpoint-toggle) ("When" . dap-breakpoint-condition)
    ("After" . dap-breakpoint-hit-condition) ("Log" . dap-breakpoint-log-message))
  "What has keys in each program: a word for each command.")

(defvar pl0-mode-map (pl0-keymap pl0-commands) "The keys of `pl0-mode'.")

(define-derived-mode pl0-mode prog-mode "PL/0"
  "Major mode for programs in PL/0, which has neither comments nor texts in quotes."
  (setq-local font-lock-defaults '(pl0-font-lock-keywords t))
  (setq-local imenu-generic-expression '((nil "\\<procedure\\s-+\\([[:alpha:]][[:alnum:]]*\\)" 1)))
  (setq-local tab-width 2)
  (setq-local indent-tabs-mode nil)
  (display-line-numbers-mode 1)
  (when (executable-find pl0-command)
    (add-hook 'flymake-diagnostic-functions #'pl0-flymake nil t)
    (flymake-mode 1)))

;; As one types, `pl0 check -' looks at the text, and what it says is marked.
(defvar-local pl0-flymake-process nil "The last check of the text of this buffer.")

(defun pl0-flymake-reported (source)
  "The diagnostics of SOURCE that the current buffer reports."
  (let (reported)
    (goto-char (point-min))
    (while (re-search-forward "^-:\\([0-9]+\\):\\([0-9]+\\): \\(error\\|warning\\): \\(.*\\)$" nil t)
      (pcase-let* ((`(,line ,column ,kind ,words) (mapcar #'match-string '(1 2 3 4)))
                   (`(,begin . ,end) (flymake-diag-region source (string-to-number line) (string-to-number column))))
        (push (flymake-make-diagnostic source begin end (if (equal kind "error") :error :warning) words) reported)))
    reported))

(defun pl0-flymake (report &rest _)
  "Call REPORT with what `pl0 check -' reports of the current buffer, if no later check has begun."
  (let* ((source (current-buffer))
         (end (lambda (process _event)
                (unless (process-live-p process)
                  (when (and (buffer-live-p source) (eq process (buffer-local-value 'pl0-flymake-process source)))
                    (funcall report (with-current-buffer (process-buffer process) (pl0-flymake-reported source))))
                  (kill-buffer (process-buffer process)))))
         (process (make-process :name "pl0-flymake" :noquery t :connection-type 'pipe :sentinel end
                                :buffer (generate-new-buffer " *pl0-flymake*") :command (list pl0-command "check" "-"))))
    (setq pl0-flymake-process process)
    (save-restriction
      (widen)
      (ignore-errors ; a text that is too long isn't read to its end, and Flymake would drop this check for good
        (process-send-region process (point-min) (point-max))
        (process-send-eof process)))))

(add-to-list 'auto-mode-alist '("\\.pl0\\'" . pl0-mode))

;; What these commands print of a mistake or a fault begins with its file, line and column, and `next-error' goes there.
(defun pl0-compile (what)
  "Save the program of the current buffer, and do WHAT with it."
  (unless buffer-file-name
    (user-error "This buffer has no file"))
  (save-buffer)
  (compilation-start (mapconcat #'shell-quote-argument (list pl0-command what buffer-file-name) " ")))

(defun pl0-run ()
  "Run the program of the current buffer."
  (interactive)
  (pl0-compile "run"))

(defun pl0-trace ()
  "Show the run of the program of the current buffer, step by step."
  (interactive)
  (pl0-compile "trace"))

(defun pl0-check ()
  "Look for a mistake in the program of the current buffer."
  (interactive)
  (pl0-compile "check"))

(defconst pl0-status-of-mistake 2 "The status of `pl0 check' where a text has a mistake.")

(defun pl0-checked (program)
  "The status of `pl0-command' after a check of the file PROGRAM, and what it printed.
Nil where it can't be asked."
  (when (and (executable-find pl0-command) (file-regular-p program))
    (with-temp-buffer
      (cons (call-process pl0-command nil t nil "check" program)
            (string-trim (buffer-string))))))

(defun pl0-dap-look (program)
  "Save the buffer of the file PROGRAM, and look for a mistake in the text.
It is an error, and its place is that of the next one.  Warnings are shown."
  (let ((buffer (find-buffer-visiting program)))
    (with-current-buffer (or buffer (current-buffer))
      (when (and buffer (buffer-modified-p))
        (save-buffer))
      (pcase-let ((`(,status . ,printed) (pl0-checked program)))
        (cond ((equal status pl0-status-of-mistake)
               (when buffer
                 (pl0-check))
               (user-error "%s" printed))
              ((and (equal status 0) (not (string-empty-p printed)))
               (display-warning 'pl0 printed)))))))

(defun pl0-dap-configuration (configuration)
  "CONFIGURATION with what it leaves out: the adapter and the program.
The program is the current buffer's file.  A text with a mistake is an error."
  (let ((whole (-> configuration
                   (dap--put-if-absent :dap-server-path pl0-dap-command)
                   (dap--put-if-absent :request "launch")
                   (dap--put-if-absent :name "PL/0")
                   (dap--put-if-absent :program (or buffer-file-name (user-error "This buffer has no file"))))))
    (pl0-dap-look (plist-get whole :program))
    whole))

(dap-register-debug-provider "pl0" #'pl0-dap-configuration)

(dap-register-debug-template "PL/0" (list :type "pl0" :request "launch"))

;; A member that is nil is sent as null, which isn't a truth value: where a program isn't to stop, leave :stopOnEntry out.
(dap-register-debug-template "PL/0, stop at the first step" (list :type "pl0" :request "launch" :stopOnEntry t))

;; The views of Debian's dap-mode 0.7 read this variable, which its treemacs doesn't have.
(defvar treemacs-text-scale nil)

;; What a log point says is output of the category console, which dap-mode leaves out.
(when dap-output-buffer-filter
  (add-to-list 'dap-output-buffer-filter "console"))

(defun pl0-dap-program (session)
  "The program of SESSION; nil where another adapter debugs it."
  (let ((launched (dap--debug-session-launch-args session)))
    (when (equal "pl0" (plist-get launched :type))
      (plist-get launched :program))))

(defconst pl0-dap-commands
  '(("Next" . dap-next) ("In" . dap-step-in) ("Out" . dap-step-out) ("Continue" . dap-continue) ("Back" . pl0-dap-step-back)
    ("Reverse" . pl0-dap-reverse-continue) ("Evaluate" . dap-eval) ("Variables" . pl0-dap-variables) ("Frames" . pl0-dap-frames)
    ("Pause" . pl0-dap-pause) ("Quit" . dap-disconnect))
  "What has keys in a program that is debugged: a word for each command.")

;; A stop selects the program's window, also if somebody types elsewhere: so that this doesn't get into the text, it is read-only.
(define-minor-mode pl0-dap-mode
  "Keys for a program that is debugged; its text can't be changed meanwhile."
  :lighter " Debug"
  :keymap (pl0-keymap pl0-dap-commands)
  (setq buffer-read-only (or pl0-dap-mode (not (file-writable-p buffer-file-name)))))

(defun pl0-dap-header (session)
  "The words whose first letters are keys in SESSION now."
  (let ((words (mapcar #'car (append pl0-dap-commands (cdr pl0-commands)))))
    (string-join (cons "C-c C-LETTER:" (if (dap--debug-session-thread-id session) (remove "Pause" words) '("Pause" "Quit"))) " ")))

(defun pl0-dap-show-keys (session)
  "Switch `pl0-dap-mode' on while the program of SESSION is debugged, and show its keys."
  (when-let* ((program (pl0-dap-program session))
              (buffer (find-buffer-visiting program)))
    (with-current-buffer buffer
      (let ((debugged (cl-some (lambda (one) (and (dap--session-running one) (equal program (pl0-dap-program one))))
                               (cons (dap--cur-session) (dap--get-sessions)))))
        (unless (eq debugged pl0-dap-mode) (pl0-dap-mode (if debugged 1 -1)))
        (setq header-line-format (when debugged (pl0-dap-header session)))))))

(dolist (hook '(dap-session-created-hook dap-continue-hook dap-stack-frame-changed-hook dap-terminated-hook))
  (add-hook hook #'pl0-dap-show-keys))

;; What is typed into a minibuffer, as behind `M-x', or into a search goes there, even if a stop arrives meanwhile.
(defun pl0-dap-go-once-typed (go session frame)
  "GO to FRAME of SESSION, once nothing is read, if the program still stands there."
  (if (not (and (pl0-dap-program session)
                (or (minibufferp (window-buffer)) (buffer-local-value 'isearch-mode (window-buffer)))))
      (funcall go session frame)
    (setf (dap--debug-session-active-frame session) frame)
    (run-with-timer 0.1 nil (lambda ()
                              (when (eq frame (dap--debug-session-active-frame session))
                                (pl0-dap-go-once-typed go session frame))))))

(advice-add 'dap--go-to-stack-frame :around #'pl0-dap-go-once-typed)

(defun pl0-dap-variables ()
  "Show scopes and variables beside the program."
  (interactive)
  (save-selected-window (dap-ui-locals)))

(defun pl0-dap-frames ()
  "Show sessions and frames beside the program."
  (interactive)
  (save-selected-window (dap-ui-sessions)))

;; A program has one thread, whose number is 1, so there is nothing to ask.
(defun pl0-dap-pause (session)
  "Stop the program of SESSION where it runs."
  (interactive (list (dap--cur-session-or-die)))
  (dap-stop-thread-1 session 1))

;; dap-mode has no commands for going back.
(defun pl0-dap-step-back (session)
  "Go back by a step in SESSION."
  (interactive (list (dap--cur-session-or-die)))
  (dap--step "stepBack" session))

(defun pl0-dap-reverse-continue (session)
  "Go back in SESSION to the last place where a breakpoint would have stopped the program, or to its beginning."
  (interactive (list (dap--cur-session-or-die)))
  (dap--step "reverseContinue" session))

;; dap-mode says nothing of a breakpoint that was refused.
(defun pl0-dap-show-refusals (session response file-name)
  "Warn of each breakpoint in FILE-NAME that was refused in SESSION by RESPONSE.
Breakpoints in other files than the program are left alone."
  (when-let* ((program (pl0-dap-program session))
              ((file-equal-p file-name program)))
    (with-current-buffer (find-file-noselect file-name)
      (cl-mapc (lambda (asked answer)
                 (unless (gethash "verified" answer)
                   (display-warning 'pl0 (format "The breakpoint at line %d stops nothing: %s"
                                                 (line-number-at-pos (dap-breakpoint-get-point asked))
                                                 (gethash "message" answer)))))
               (gethash file-name (dap--get-breakpoints))
               (gethash "breakpoints" (gethash "body" response))))))

(advice-add 'dap--update-breakpoints :after #'pl0-dap-show-refusals)

;; A fault's name is in the event `stopped'.  dap-mode asks for it once more, by `exceptionInfo', and shows what it is answered.
(defvar pl0-dap-fault nil "The name of the fault before which a program stopped last.")

(defun pl0-dap-keep-fault (_session event)
  "Keep the name of the fault in EVENT, if it has one."
  (when (equal "stopped" (gethash "event" event))
    (setq pl0-dap-fault (gethash "text" (gethash "body" event)))))

(advice-add 'dap--on-event :before #'pl0-dap-keep-fault)

;; After `disconnect' the adapter's process ends at the end of its input, which dap-mode leaves open.
(defun pl0-dap-send (send message callback session)
  "SEND MESSAGE of SESSION, whose answer goes to CALLBACK; for a fault that is known already, answer."
  (pcase (when (pl0-dap-program session) (plist-get message :command))
    ("exceptionInfo"
     (funcall callback (ht ("body" (ht ("exceptionId" pl0-dap-fault) ("description" "The next step can't be taken"))))))
    (command
     (funcall send message callback session)
     (when (equal "disconnect" command) (process-send-eof (dap--debug-session-proc session))))))

(advice-add 'dap--send-message :around #'pl0-dap-send)

;; These mark the line of a stop and those of breakpoints, and make a menu Debug.
(dap-mode 1)
(dap-ui-mode 1)

(provide 'pl0-dap)
;;; pl0-dap.el ends here
