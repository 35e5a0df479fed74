-- What pl0.lua gives to nvim-dap, of which a stand-in is here: Neovim itself runs, and the plugin doesn't.
--
-- usage: nvim --headless --clean -c "luafile neovim.lua"
--
-- The folder in NEOVIM_PROGRAMS has mistake.pl0, with a mistake, and factorial.pl0 without one; pl0 has to be on the path. Prints
-- what Neovim shows, and ends with status 0 if that is right.

local folder = vim.fn.fnamemodify(debug.getinfo(1, "S").source:sub(2), ":p:h:h")
local programs = vim.env.NEOVIM_PROGRAMS
local said, launched = {}, {}

vim.notify = function(text)
  table.insert(said, text)
end

local function expect(what, wanted, found)
  if not vim.deep_equal(wanted, found) then
    print(what .. ": " .. vim.inspect(found) .. ", and not " .. vim.inspect(wanted) .. "\n")
    vim.cmd("cquit 1")
  end
end

-- What becomes of a launch of a program, as nvim-dap asks for its adapter.
local function launch(name)
  local dap = require("dap")
  dap.adapters.pl0(function(adapter)
    table.insert(launched, adapter)
  end, { type = "pl0", request = "launch", program = programs .. "/" .. name })
end

package.loaded["dap"] = { adapters = {}, configurations = {} }
vim.cmd("luafile " .. vim.fn.fnameescape(folder .. "/neovim/pl0.lua"))
vim.cmd("edit " .. vim.fn.fnameescape(programs .. "/factorial.pl0"))
expect("the file type", "pl0", vim.bo.filetype)

local adapter = { type = "executable", command = "pl0dap-listen", args = { "-", "pl0dap_from_zero" } }
launch("factorial.pl0")
expect("a launch", { adapter }, launched)
launch("mistake.pl0")
expect("a launch of a text with a mistake", { adapter }, launched)
expect("the file that is shown", "mistake.pl0", vim.fn.expand("%:t"))
expect("the place", { 2, 8 }, vim.api.nvim_win_get_cursor(0))
expect("what is said", 1, #said)
print((said[1]:gsub(vim.pesc(programs), "")) .. "\n")
vim.cmd("make")
expect("what :make finds", { 2, 9 }, { vim.fn.getqflist()[1].lnum, vim.fn.getqflist()[1].col })
expect("what :make says", true, said[1]:find(vim.fn.getqflist()[1].text, 1, true) ~= nil)
local function marked(wanted)
  local found
  vim.wait(20000, function()
    found = vim.tbl_map(function(one) return { one.lnum, one.col, one.severity } end, vim.diagnostic.get(0))
    return vim.deep_equal(wanted, found)
  end)
  expect("what is marked as one types", wanted, found)
end
marked({ { 1, 8, 1 } })
vim.cmd("normal! x")
vim.cmd("doautocmd TextChanged")
vim.cmd("normal! u")
vim.api.nvim_buf_set_lines(0, 0, -1, true, { "if 1 = 1 then." })
vim.cmd("doautocmd TextChanged")
marked({ { 0, 9, 2 } })
vim.api.nvim_buf_set_lines(0, 0, -1, true, { "! 1." })
vim.cmd("doautocmd TextChanged")
marked({})
vim.cmd("edit!")
vim.fn.writefile({ "if 1 = 1 then." }, programs .. "/warned.pl0")
launch("warned.pl0")
expect("a launch with a warning", { adapter, adapter }, launched)
expect("the warning", true, (said[2] or ""):find("warned.pl0:1:10: warning: ", 1, true) ~= nil)
vim.env.PATH = "/nowhere"
launch("mistake.pl0")
expect("a launch without pl0", { adapter, adapter, adapter }, launched)
vim.cmd("quitall!")
