" Sets and scripts of Lynx.
autocmd BufRead,BufNewFile *.set if getline(1) =~# '^lynx [12]$' | setfiletype lynxset | endif
autocmd BufRead,BufNewFile *.script if getline(1) =~# '^\(begin\|deliver\|lose\|wake\|restart\) ' | setfiletype lynxscript | endif
