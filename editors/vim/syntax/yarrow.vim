" Modules of Yarrow. The signs \ @ -> # are shown as λ Π → □ outside of the line of the cursor; the file keeps them.
if exists('b:current_syntax')
  finish
endif

syntax match yarrowLine '^\s*\%(yarrow-module\|module\|uses\|parameter\|assume\|define\|end\)\>' nextgroup=yarrowName skipwhite
syntax match yarrowName '[^[:space:]:.\\@()]\+' contained
syntax keyword yarrowLet let in
syntax match yarrowSort "\*\|'\K\k*"
syntax match yarrowSort '#' conceal cchar=□
syntax match yarrowBinder '\\' conceal cchar=λ
syntax match yarrowBinder '@' conceal cchar=Π
syntax match yarrowArrow '->' conceal cchar=→
syntax match yarrowArrow ':='
syntax match yarrowComment '%.*$'

highlight default link yarrowLine Statement
highlight default link yarrowName Function
highlight default link yarrowLet Keyword
highlight default link yarrowSort Type
highlight default link yarrowBinder Special
highlight default link yarrowArrow Operator
highlight default link yarrowComment Comment

let b:current_syntax = 'yarrow'
