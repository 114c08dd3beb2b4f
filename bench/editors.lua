-- Types into the buffer, and compares docs/text with it after every tenth edit.
local buf = vim.api.nvim_get_current_buf()
local id = vim.lsp.start_client({ cmd = vim.split(vim.env.SERVER, " "), root_dir = vim.fn.getcwd() })
vim.lsp.buf_attach_client(buf, id)
local client = vim.lsp.get_client_by_id(id)
assert(vim.wait(10000, function() return client.initialized end), "no initialize")
math.randomseed(tonumber(vim.env.SEED))
local words = { "a", "wort", "größe", "漢字", "😀", "e\u{301}", "𝒳y", "  ", "<CR>", "<CR>x😀<CR>" }
local ends = { unix = "\n", dos = "\r\n", mac = "\r" }
local wrong = 0
for n = 1, tonumber(vim.env.COUNT) do
  local key = ({ "i", "A", "o", "I", "O" })[math.random(5)]
  local keys = math.random(vim.fn.line("$")) .. "G" .. math.random(9) .. "|"
  local what = math.random(8)
  if what <= 5 then keys = keys .. key .. words[math.random(#words)] .. words[math.random(#words)] .. "<Esc>"
  elseif what == 6 then keys = keys .. "x"
  elseif what == 7 then keys = keys .. "dw"
  else keys = keys .. "J" end
  vim.api.nvim_feedkeys(vim.api.nvim_replace_termcodes(keys, true, false, true), "xt", false)
  if n % 10 == 0 then
    vim.wait(300)
    local r = client.request_sync("docs/text", { uri = vim.uri_from_bufnr(buf) }, 10000, buf)
    local eol = ends[vim.bo.fileformat]
    local text = table.concat(vim.api.nvim_buf_get_lines(buf, 0, -1, true), eol) .. (vim.bo.eol and eol or "")
    if not r or not r.result or r.result.text ~= text then
      wrong = wrong + 1
      io.stderr:write("differs after edit " .. n .. "\n")
    end
  end
end
io.stderr:write(string.format("neovim: %d edits, %d bytes, %d differ\n", tonumber(vim.env.COUNT), #table.concat(vim.api.nvim_buf_get_lines(buf, 0, -1, true), "\n"), wrong))
vim.cmd(wrong == 0 and "qa!" or "cq")
