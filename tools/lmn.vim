" The syntax of LMNtal texts, for Vim. Put it into ~/.vim/syntax/, and into ~/.vim/filetype.vim:
"     autocmd BufNewFile,BufRead *.lmn setfiletype lmn
" With tools/lint as 'makeprg', :make goes to the place of a refusal:
"     autocmd FileType lmn setlocal makeprg=/path/to/tools/lint\ % errorformat=%f:%l:%c:\ %m
if exists('b:current_syntax')
    finish
endif
syntax match lmnName "\<[a-z][A-Za-z0-9_]*"
syntax match lmnLink "\<[A-Z_][A-Za-z0-9_]*"
syntax match lmnContext "[$@][A-Za-z_][A-Za-z0-9_]*"
syntax match lmnInteger "-\?\<\d\+\>"
syntax keyword lmnCondition int unary ground mod
syntax match lmnRule ":-\|@@\||\|\\"
syntax match lmnCompare "=<\|>=\|=:=\|=\\=\|\\=\|<\|>\|="
syntax match lmnBracket "[{}]"
syntax region lmnQuoted start="'" skip="''" end="'" oneline
syntax match lmnComment "%.*$"
syntax match lmnComment "//.*$"
syntax region lmnComment start="/\*" end="\*/"
syntax match lmnRefused "[!\"]\|\[:"
highlight default link lmnName Identifier
highlight default link lmnLink Type
highlight default link lmnContext Special
highlight default link lmnInteger Number
highlight default link lmnCondition Keyword
highlight default link lmnRule Statement
highlight default link lmnCompare Operator
highlight default link lmnBracket Delimiter
highlight default link lmnQuoted String
highlight default link lmnComment Comment
highlight default link lmnRefused Error
let b:current_syntax = 'lmn'
