" The symbols of definitions are typed as in keymap/rattle.vim: `\==` is ≡. CTRL-^ in insert mode switches them off and on.
setlocal keymap=rattle iminsert=1
setlocal expandtab shiftwidth=2
