" Vim settings for who changes this repository: Rattle's code is highlighted as Rust, and definitions and proofs as Haskell,
" whose comments they share. Put it into ~/.vim/plugin/, or ~/.config/nvim/plugin/.

augroup rattle
  autocmd!
  autocmd BufRead,BufNewFile *.rt setfiletype rust | setlocal expandtab shiftwidth=4 colorcolumn=101
  autocmd BufRead,BufNewFile *.antt setfiletype haskell | setlocal expandtab shiftwidth=2 commentstring=--\ %s colorcolumn=101
augroup END
