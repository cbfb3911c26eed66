" The columns of CONTRIBUTING: 120 for sources.
setlocal commentstring=//\ %s shiftwidth=4 expandtab colorcolumn=121
