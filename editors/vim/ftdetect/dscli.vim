" Scripts of drsim, plans of sweep, and files of answers.
au BufRead,BufNewFile *.dscli setfiletype dscli
au BufRead,BufNewFile *.plan if search('^#sweep\>', 'nw') | setfiletype dscli | endif
au BufRead *.out if getline(1) =~# '^\d\+ \%(ok\|held\|E\d\d\)\>' | setfiletype dscli_answers | endif
