autocmd BufRead,BufNewFile *.flow setfiletype flow
" second parts in files of their own, which begin with the line that parts them from the workflow
autocmd BufRead *.session,*.journal,*.journals,*.query,*.policy if getline(1) =~# '^%%\r\?$' | setfiletype flow | endif
