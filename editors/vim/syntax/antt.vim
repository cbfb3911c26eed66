" Definitions and proofs of Rattle.
if exists("b:current_syntax")
  finish
endif
syntax iskeyword @,48-57,_,',192-255,.

syntax keyword anttKeyword abbrev unfoldable record data fn pub use module where let in as
syntax keyword anttBranch match with if then else of case
syntax keyword anttTactic search using rules by
syntax match anttType "\v<[A-Z]\w*>"
syntax match anttNumber "\v<\d+>"
syntax match anttSymbol "[λ→↔≡≤×∷Σ∀∃⊤⊥ℕ◌]"
syntax region anttString start=+"+ skip=+\\"+ end=+"+
syntax match anttComment "--.*$" contains=@Spell

highlight default link anttKeyword Keyword
highlight default link anttBranch Conditional
highlight default link anttTactic Special
highlight default link anttType Type
highlight default link anttNumber Number
highlight default link anttSymbol Operator
highlight default link anttString String
highlight default link anttComment Comment

let b:current_syntax = "antt"
