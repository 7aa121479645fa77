-- Boogie programs in Neovim 0.7 and later, with what `bplserve` says of them. In init.lua:
--
--     dofile("/path/to/bplserve/examples/editor/nvim.lua")
--
-- What isn't proved and what is wrong is shown while typing; over each procedure stands whether it is correct.

local folder = vim.fn.fnamemodify(debug.getinfo(1, "S").source:sub(2), ":p:h")
local config = { name = "bplserve", cmd = { folder .. "/bpl-lsp" }, root_dir = vim.fn.getcwd() }
local client

local function attach(buffer)
  if vim.lsp.start then
    vim.lsp.start(config)
  else
    client = client or vim.lsp.start_client(config)
    vim.lsp.buf_attach_client(buffer, client)
  end
end

local group = vim.api.nvim_create_augroup("bplserve", {})

vim.api.nvim_create_autocmd({ "BufRead", "BufNewFile" }, {
  group = group,
  pattern = "*.bpl",
  callback = function(event)
    vim.bo[event.buf].filetype = "boogie"
    vim.bo[event.buf].commentstring = "// %s"
    attach(event.buf)
  end,
})

vim.api.nvim_create_autocmd("DiagnosticChanged", {
  group = group,
  pattern = "*.bpl",
  callback = function(event)
    if event.buf == vim.api.nvim_get_current_buf() then
      vim.lsp.codelens.refresh()
    end
  end,
})

vim.diagnostic.config({ update_in_insert = true })
