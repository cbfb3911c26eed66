" Rattle is Rust with contracts: Rust's highlighting, and the words of contracts.
if exists("b:current_syntax")
  finish
endif
runtime! syntax/rust.vim
unlet! b:current_syntax

syntax keyword rattleContract ensures requires ghost
syntax match rattleSymbol "[λ→↔≡≤×∷Σ∀∃⊤⊥]"

highlight default link rattleContract Statement
highlight default link rattleSymbol Operator

let b:current_syntax = "rattle"
