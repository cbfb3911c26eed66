" The columns of CONTRIBUTING: 200 for proofs, 160 for definitions.
setlocal commentstring=--\ %s shiftwidth=2 expandtab
let &l:colorcolumn = expand("%:p") =~# "/proofs/" ? 201 : 161
