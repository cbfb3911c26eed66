" Files of Rattle: sources, and definitions and proofs; wrong bodies are lines of both.
autocmd BufRead,BufNewFile *.rt setfiletype rattle
autocmd BufRead,BufNewFile *.antt setfiletype antt
