-- What test_nvim.py has Neovim do with the file that it opened. BPL_TEST names the scene.

local SECONDS = 20

local function fail(message)
  io.stderr:write(message .. "\n" .. vim.inspect(vim.diagnostic.get(0)) .. "\n")
  vim.cmd("cquit 1")
end

-- Waits until so many diagnostics are there, and the first of them is at a line and from one column to
-- another, all counted from 1, columns in bytes; how many milliseconds it took.
local function expect(count, line, from, to, code)
  local begun = vim.loop.hrtime()
  local met = vim.wait(SECONDS * 1000, function()
    local found = vim.diagnostic.get(0)
    local first = found[1]
    return #found == count
      and (count == 0 or (first.lnum == line - 1 and first.col == from - 1 and first.end_col == to and first.code == code))
  end, 5)
  if not met then
    fail(("wanted: %d, the first at %s:%s to %s, %s"):format(count, line, from, to, code))
  end
  return (vim.loop.hrtime() - begun) / 1e6
end

local function lens_over(line, title)
  local met = vim.wait(SECONDS * 1000, function()
    for _, lens in ipairs(vim.lsp.codelens.get(0)) do
      if lens.range.start.line == line - 1 and lens.command.title == title then
        return true
      end
    end
  end, 5)
  if not met then
    fail(("wanted over line %d: %s; found %s"):format(line, title, vim.inspect(vim.lsp.codelens.get(0))))
  end
end

local function type_keys(keys)
  vim.api.nvim_feedkeys(vim.api.nvim_replace_termcodes(keys, true, false, true), "ntx", false)
end

local scenes = {}

-- A file with an assertion that isn't proved, and what is typed into it.
function scenes.typing()
  expect(1, 6, 3, 15, "assert open")
  lens_over(2, "0 of 1 goals proved")
  -- a mend
  type_keys("6G0f2r1")
  expect(0)
  lens_over(2, "correct")
  -- faults, behind letters of one, two and four bytes
  type_keys("6G0Ca\u{20ac} /* \u{1f600} */ assert true > 1;")
  expect(1, 6, 2, 4, "Lex")
  type_keys("6G0C  /* \u{e9}\u{1f600} */ assert true > 1;")
  expect(1, 6, 23, 26, "Sort")
  type_keys("6G0C  assert x > 1;")
  expect(0)
  -- another procedure
  type_keys("Goprocedure New() {<CR>  assert 1 == 2;<CR>}")
  expect(1, 9, 3, 16, "assert open")
  lens_over(8, "0 of 1 goals proved")
end

-- A file of a thousand procedures: an assertion of one is changed to and fro.
function scenes.large()
  expect(0)
  lens_over(1, "correct")
  local quickest = math.huge
  for _ = 1, 5 do
    type_keys("8015G$hr8")
    quickest = math.min(quickest, expect(1, 8015, 3, 20, "assert open"))
    type_keys("8015G$hr7")
    expect(0)
  end
  io.stdout:write(("%.0f\n"):format(quickest))
end

local met, message = pcall(scenes[vim.env.BPL_TEST])
if not met then
  fail(message)
end
vim.cmd("qall!")
