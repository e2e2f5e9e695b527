" Vim syntax of amdl networks and schedules.
" Install: copy to ~/.vim/syntax/amdl.vim, and put into ~/.vim/ftdetect/amdl.vim the line
"   autocmd BufRead,BufNewFile *.amdl set filetype=amdl
if exists("b:current_syntax")
  finish
endif

syntax case match
syntax match amdlComment "#.*$"
syntax match amdlNumber "\<\d\{1,9}\>"
syntax match amdlSign ":=\|->\|--\|!=\|[;:,.{}()\[\]=|]"
syntax keyword amdlItem network type field middlebox port relation on host box with link sends forbid
syntax keyword amdlStatement insert remove output abort if fi pick in
syntax keyword amdlGuard has not and or true
syntax keyword amdlEdit add drop swap verdict invariant
syntax keyword amdlStep send deliver revert
syntax match amdlTooLong "\<\h\w\{24,}\>"

highlight default link amdlComment Comment
highlight default link amdlNumber Number
highlight default link amdlSign Delimiter
highlight default link amdlItem Keyword
highlight default link amdlStatement Statement
highlight default link amdlGuard Conditional
highlight default link amdlEdit PreProc
highlight default link amdlStep Function
highlight default link amdlTooLong Error

setlocal commentstring=#\ %s
setlocal shiftwidth=2 expandtab

let b:current_syntax = "amdl"
