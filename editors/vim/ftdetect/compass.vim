" Made by bench/editors of the program's tables of operations; what is changed here is lost.
autocmd BufNewFile,BufRead *.deck,*.DECK setfiletype compass
