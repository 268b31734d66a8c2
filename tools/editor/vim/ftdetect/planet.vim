" How files of planet are known: programs by name, others by their first line; by scripts/pages/editor
autocmd BufRead,BufNewFile *.plan setfiletype plan
autocmd BufRead,StdinReadPost * if getline(1) =~# '^planet \%(schedule\|node\|inject\|fleet\|log\|cut\|port\|audit\|trace\) [12]$' | set filetype=planet | endif
