-- What Neovim shows of two texts over a server: diagnostics, hover, completion, places of a name, a rename, an outline.
local server, folder = vim.env.FMP_SERVER, vim.env.FMP_FOLDER
local client
local function say(text) io.stdout:write(text .. "\n") end
vim.cmd("filetype plugin on")
vim.api.nvim_create_autocmd("FileType", {
  pattern = "fmp",
  callback = function()
    local config = { name = "fmp", cmd = { server, "lsp" }, root_dir = folder }
    if vim.lsp.start then
      vim.lsp.start(config)
    else
      client = client or vim.lsp.start_client(config)
      vim.lsp.buf_attach_client(0, client)
    end
  end,
})
vim.cmd("edit " .. folder .. "/tank.cfg")
local cfg = vim.api.nvim_get_current_buf()
vim.cmd("edit " .. folder .. "/tank.src")
local src = vim.api.nvim_get_current_buf()
local function wait(what, ready)
  if not vim.wait(10000, ready, 20) then say("TOO LATE: " .. what) end
end
wait("the server", function() return #vim.lsp.buf_get_clients(src) > 0 end)
local function diagnostics(title)
  vim.wait(1500, function() return false end, 50)
  say("== " .. title)
  for _, buffer in ipairs({ cfg, src }) do
    for _, it in ipairs(vim.diagnostic.get(buffer)) do
      local name = vim.fn.fnamemodify(vim.api.nvim_buf_get_name(buffer), ":t")
      say(("%s:%d:%d-%d: %s%s"):format(name, it.lnum + 1, it.col + 1, it.end_col + 1, it.code and it.code .. ": " or "",
        it.message))
    end
  end
end
local function ask(method, line, character, more)
  local params = vim.tbl_extend("force", {
    textDocument = vim.lsp.util.make_text_document_params(src),
    position = { line = line, character = character },
  }, more or {})
  local answers = vim.lsp.buf_request_sync(src, "textDocument/" .. method, params, 5000)
  for _, answer in pairs(answers or {}) do return answer.result, answer.error end
end
local function place(it)
  return ("%s:%d:%d"):format(vim.fn.fnamemodify(vim.uri_to_fname(it.uri), ":t"), it.range.start.line + 1,
    it.range.start.character + 1)
end
diagnostics("a misspelled name")
vim.api.nvim_buf_set_lines(src, 2, 3, false, { "    wai_sem(LEVEL);" })
diagnostics("the name is right, and the body spare is used by nothing")
say("== hover over wai_sem")
say(ask("hover", 2, 6).contents.value)
say("== hover over LEVEL")
say(ask("hover", 2, 14).contents.value)
say("== definition and references of LEVEL")
for _, it in ipairs(ask("definition", 2, 14)) do say(place(it)) end
for _, it in ipairs(ask("references", 2, 14, { context = { includeDeclaration = false } })) do say(place(it)) end
say("== completion: the words that begin with twai")
for _, it in ipairs(ask("completion", 2, 4).items) do
  if vim.startswith(it.label, "twai") then say(it.label .. " " .. it.detail) end
end
say("== the outline")
for _, it in ipairs(ask("documentSymbol", 0, 0)) do say(("%s, %s"):format(it.name, it.detail)) end
say("== LEVEL is renamed to DEPTH in both texts")
vim.lsp.util.apply_workspace_edit(ask("rename", 2, 14, { newName = "DEPTH" }), "utf-16")
for _, buffer in ipairs({ cfg, src }) do
  for _, line in ipairs(vim.api.nvim_buf_get_lines(buffer, 0, -1, false)) do
    if line:find("DEPTH") or line:find("LEVEL") then say(line) end
  end
end
say("== a name that stands already")
local _, refused = ask("rename", 2, 14, { newName = "PUMP" })
say(refused.message)
vim.cmd("qall!")
