"use strict";
// Starts `fmp_view lsp` for the two texts. Without `npm install` in this folder there is highlighting alone.
let client;

exports.activate = () => {
  let library;
  try {
    library = require("vscode-languageclient/node");
  } catch {
    return undefined;
  }
  const server = { command: "fmp_view", args: ["lsp"] };
  client = new library.LanguageClient("fmp", "fmp", server, { documentSelector: [{ language: "fmp" }] });
  return client.start();
};

exports.deactivate = () => (client ? client.stop() : undefined);
