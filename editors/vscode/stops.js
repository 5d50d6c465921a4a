// The key Tab in a deck: blanks up to column 11, 18, 30, and then up to the next eighth from 33 on.
// Made by bench/editors of the program's tables of operations; what is changed here is lost.
'use strict';
const STOPS = [11, 18, 30];

function blanks(column) {
  const stop = STOPS.find((stop) => column < stop);
  return ' '.repeat(stop === undefined ? 8 - ((column - 33 + 8) % 8) : stop - column);
}

function activate(context) {
  const vscode = require('vscode');
  context.subscriptions.push(vscode.commands.registerTextEditorCommand('compass.nextStop', (editor, edit) => {
    for (const selection of editor.selections) {
      edit.replace(selection, blanks(selection.start.character + 1));
    }
  }));
}

module.exports = { activate, blanks };
