-- PL/0 for Neovim and its plugin nvim-dap: goes into after/plugin of Neovim's configuration, and syntax/pl0.vim beside it into syntax.

vim.api.nvim_create_autocmd({ "BufRead", "BufNewFile" }, { pattern = "*.pl0", command = "setfiletype pl0" })

-- What `pl0 check` prints of a mistake begins with its file, line and column: `:make` runs it, and goes there.
local places = "%f:%l:%c: %trror: %m,%f:%l:%c: %m"

vim.api.nvim_create_autocmd("FileType", {
  pattern = "pl0",
  command = [[setlocal makeprg=pl0\ check\ %:S errorformat=]] .. vim.fn.escape(places, " "),
})

-- As one types, `pl0 check -` looks at the text half a second after the last change, and what it says is marked.
local marks, rest, changes = vim.api.nvim_create_namespace("pl0"), 500, {}
local fields, kinds = { "lnum", "col", "severity", "message" }, { error = "ERROR", warning = "WARN" }

local function mark(buffer, said)
  local found = vim.tbl_map(function(line)
    return vim.diagnostic.match(line, "^%-:(%d+):(%d+): (%a+): (.*)$", fields, kinds)
  end, said)
  vim.diagnostic.set(marks, buffer, vim.tbl_filter(function(one) return one ~= nil end, found))
end

local function check(buffer)
  local tick = vim.api.nvim_buf_get_changedtick(buffer)
  local job = vim.fn.jobstart({ "pl0", "check", "-" }, {
    stderr_buffered = true,
    on_stderr = function(_, said)
      if vim.api.nvim_buf_is_valid(buffer) and vim.api.nvim_buf_get_changedtick(buffer) == tick then
        mark(buffer, said)
      end
    end,
  })
  vim.fn.chansend(job, vim.api.nvim_buf_get_lines(buffer, 0, -1, true))
  vim.fn.chanclose(job, "stdin")
end

vim.api.nvim_create_autocmd({ "BufRead", "TextChanged", "TextChangedI" }, {
  pattern = "*.pl0",
  callback = function(event)
    local own = (changes[event.buf] or 0) + 1
    changes[event.buf] = own
    vim.defer_fn(function()
      if own == changes[event.buf] and vim.api.nvim_buf_is_valid(event.buf) and vim.fn.executable("pl0") == 1 then
        check(event.buf)
      end
    end, rest)
  end,
})

local is_there, dap = pcall(require, "dap")
if not is_there then
  return
end

-- Goes to the mistake in the text of a program and says it, if there is one, and if pl0 is there to be asked. Says warnings.
local function has_mistake(program)
  if vim.fn.executable("pl0") == 0 then
    return false
  end
  local said = vim.fn.systemlist({ "pl0", "check", program })
  local status = vim.v.shell_error
  if status == 0 and #said > 0 then
    vim.notify(table.concat(said, "\n"), vim.log.levels.WARN)
  end
  if status ~= 2 then
    return false
  end
  vim.fn.setqflist({}, " ", { title = "pl0 check", lines = said, efm = places })
  pcall(vim.cmd, "silent cfirst") -- which fails where another text isn't saved
  vim.notify(table.concat(said, "\n"), vim.log.levels.ERROR)
  return true
end

-- nvim-dap numbers its requests from 0, and pl0dap passes over a request 0. pl0dap-listen puts codes into words, and joins what a
-- program writes without end. A program with a mistake isn't launched.
dap.adapters.pl0 = function(launch, configuration)
  if not has_mistake(configuration.program) then
    launch({ type = "executable", command = "pl0dap-listen", args = { "-", "pl0dap_from_zero" } })
  end
end

dap.configurations.pl0 = {
  { type = "pl0", request = "launch", name = "PL/0", program = "${file}" },
  { type = "pl0", request = "launch", name = "PL/0, stop at the first step", program = "${file}", stopOnEntry = true },
}
