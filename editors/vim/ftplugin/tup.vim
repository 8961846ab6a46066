setlocal comments=:# commentstring=#\ %s
setlocal iskeyword+=!
