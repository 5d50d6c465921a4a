" Decks of cards: blanks for tabs, stops at columns 11, 18, 30. Made by bench/editors of the program's tables of operations; what is changed here is lost.
if exists("b:did_ftplugin")
  finish
endif
let b:did_ftplugin = 1
setlocal expandtab textwidth=0 colorcolumn=11,18,30,73
setlocal errorformat=%f:%l:%c:\ %m,%f:%l:\ %m

" The blanks up to the next stop, and behind the last one up to the next eighth column from 33 on.
function! CompassTab() abort
  let column = virtcol('.')
  for stop in [11, 18, 30]
    if column < stop
      return repeat(' ', stop - column)
    endif
  endfor
  return repeat(' ', 8 - (column - 33 + 8) % 8)
endfunction
inoremap <buffer> <expr> <Tab> CompassTab()
let b:undo_ftplugin = "setlocal expandtab< textwidth< colorcolumn< errorformat< | silent! iunmap <buffer> <Tab>"
