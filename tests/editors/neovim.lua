-- What a user of neovim sees of README's five lines. The configuration is README's; TEXT is the file, REPORT gets a line a check.
local report = io.open(vim.env.REPORT, "a")
local said = {}
vim.notify = function(message) said[#said + 1] = message end

local function check(name, holds, got)
  report:write(holds and "ok " .. name .. "\n" or "FAIL " .. name .. ": " .. vim.inspect(got):gsub("\n%s*", " ") .. "\n")
  report:flush()
end

-- Waits until this holds, at most 10 seconds. The session is a coroutine, so that neovim works on keys and messages meanwhile.
local session
local function go_on()
  local ok, fault = coroutine.resume(session)
  if not ok then check("script", false, fault); vim.cmd("cquit 2") end
end
local function wait(holds)
  local timer, tries = vim.loop.new_timer(), 0
  timer:start(20, 20, vim.schedule_wrap(function()
    if timer:is_closing() then return end
    tries = tries + 1
    if holds() or tries > 500 then timer:close(); go_on() end
  end))
  coroutine.yield()
end

-- The diagnostics of the shown file, a line each: its line, whether it is an error or a warning, its message.
local function diagnostics()
  local found = {}
  for _, it in ipairs(vim.diagnostic.get(0)) do found[#found + 1] = (it.lnum + 1) .. " " .. it.severity .. " " .. it.message end
  table.sort(found)
  return table.concat(found, "\n")
end

-- The text of the window that floats over the others.
local function floating()
  for _, window in ipairs(vim.api.nvim_list_wins()) do
    if vim.api.nvim_win_get_config(window).relative ~= "" then
      return table.concat(vim.api.nvim_buf_get_lines(vim.api.nvim_win_get_buf(window), 0, -1, false), "\n")
    end
  end
end

-- Takes the proposed change of this title, at a place.
local function act(line, column, title, changed)
  vim.api.nvim_win_set_cursor(0, { line, column })
  local titles
  vim.ui.select = function(items, options, choose)
    titles = vim.tbl_map(options.format_item, items)
    for number, it in ipairs(titles) do
      if it == title then return choose(items[number], number) end
    end
    choose(nil)
  end
  vim.lsp.buf.code_action()
  wait(function() return vim.fn.getline(line) == changed end)
  check(title, vim.fn.getline(line) == changed, { vim.fn.getline(line), titles })
end

session = coroutine.create(function()
  vim.cmd("edit " .. vim.env.TEXT)
  wait(function() return #vim.diagnostic.get(0) == 4 end)
  check("diagnostics", diagnostics() == "2 1 This has type string but type int is wanted\n3 1 Unbound value fo\n"
    .. "4 2 Not every value is matched: Some _\n5 1 1 part is missing here", diagnostics())

  vim.api.nvim_win_set_cursor(0, { 1, 4 })
  vim.cmd("normal K")
  wait(floating)
  check("hover", (floating() or ""):find("('a -> 'a) -> 'a -> 'a", 1, true), floating())

  vim.api.nvim_win_set_cursor(0, { 2, 8 })
  vim.lsp.buf.definition()
  wait(function() return vim.api.nvim_win_get_cursor(0)[1] == 1 end)
  check("definition", vim.deep_equal(vim.api.nvim_win_get_cursor(0), { 1, 4 }), vim.api.nvim_win_get_cursor(0))

  local names = {}
  vim.api.nvim_win_set_cursor(0, { 3, 14 })
  vim.api.nvim_input("A<C-x><C-o>")
  wait(function() return vim.fn.pumvisible() == 1 end)
  for _, it in ipairs(vim.fn.complete_info({ "items" }).items) do names[#names + 1] = it.word end
  check("completion", vim.deep_equal(names, { "fold_left", "fold_right", "for_all" }), names)
  vim.api.nvim_input("<C-e><Esc>")
  wait(function() return vim.fn.mode() == "n" end)

  act(4, 19, "Case analysis", "let f opt = match (match opt with | None -> _ | Some _ -> _) with None -> 0")
  act(5, 11, "Insert 0", "let k = n +0")

  vim.api.nvim_buf_set_lines(0, 0, -1, false, { "let s = \"😀\" ^ \"a\"" })
  wait(function() return diagnostics() == "" end)
  check("no diagnostics where nothing is wrong", diagnostics() == "", diagnostics())
  check("no complaint", #said == 0, said)
  vim.cmd("qall!")
end)

vim.schedule(go_on)
