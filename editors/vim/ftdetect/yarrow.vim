autocmd BufRead,BufNewFile *.yar setfiletype yarrow
autocmd BufRead,BufNewFile *.src if getline(1) ==# 'yarrow-module 1' | setfiletype yarrow | endif
