" The colours of Ur/Web: code, statements of SQL in it, and markup, in which code stands again.
if exists('b:current_syntax')
  finish
endif
syntax case match
syntax sync fromstart

syntax match urwebNumber "\<\d\+\>"
syntax match urwebCapital "\<\u[A-Za-z0-9_']*"
syntax match urwebModule "\<\u[A-Za-z0-9_']*\ze\.\l"
syntax match urwebField "#\u[A-Za-z0-9_']*"
syntax match urwebOperator "<-\|->\|=>\|::\|<>\|<=\|>=\|++\|--\|&&\|||\|[=<>~+*/%^$|-]"

syntax keyword urwebKeyword and case con cookie datatype else end fn fun if in let of sequence table then type val
syntax keyword urwebSql SELECT FROM WHERE GROUP BY ORDER ASC DESC LIMIT OFFSET AS JOIN ON COUNT SUM MIN MAX
syntax keyword urwebSql INSERT INTO VALUES UPDATE SET DELETE AND OR NOT TRUE FALSE PRIMARY KEY CONSTRAINT UNIQUE
syntax keyword urwebConstant True False None Some
syntax keyword urwebForm return show not error nextval dml queryX queryL oneRow oneOrNoRows getCookie setCookie fold map
syntax keyword urwebType int string bool unit option list page xbody xtable xtr xform transaction Type Name

syntax match urwebEscape contained +\\["\\nt]+
syntax region urwebString start=+"+ skip=+\\["\\]+ end=+"+ oneline contains=urwebEscape
syntax region urwebSqlText start=+\%([A-Za-z0-9_']\)\@1<!'+ skip=+''+ end=+'+ oneline
syntax region urwebComment start="(\*" end="\*)" contains=urwebComment,urwebTodo
syntax keyword urwebTodo contained TODO FIXME

" A brace in code has its own end, so that the one of the markup round it is found.
syntax region urwebBraces matchgroup=Delimiter start="{" end="}" contains=TOP
syntax match urwebMarkupEmpty "<xml/>"
syntax region urwebMarkup matchgroup=urwebMarkupEmpty start="<xml>" end="</xml>" contains=urwebTag,urwebEntity,urwebSplice
syntax region urwebTag contained matchgroup=urwebTagEnd start="</\?\l[a-z0-9]*" end="/\?>" contains=urwebAttribute,urwebAttributeText,urwebSplice
syntax match urwebAttribute contained "\l[a-z0-9]*\ze\s*="
syntax region urwebAttributeText contained start=+"+ end=+"+ oneline contains=urwebEntity
syntax match urwebEntity contained "&\%(amp\|lt\|gt\|quot\|nbsp\);"
syntax region urwebSplice contained matchgroup=urwebSpliceEnd start="{" end="}" contains=TOP

highlight default link urwebNumber Number
highlight default link urwebCapital Identifier
highlight default link urwebModule Include
highlight default link urwebField Identifier
highlight default link urwebOperator Operator
highlight default link urwebKeyword Keyword
highlight default link urwebSql Statement
highlight default link urwebConstant Constant
highlight default link urwebForm Function
highlight default link urwebType Type
highlight default link urwebEscape SpecialChar
highlight default link urwebString String
highlight default link urwebSqlText String
highlight default link urwebComment Comment
highlight default link urwebTodo Todo
highlight default link urwebMarkupEmpty Tag
highlight default link urwebTagEnd Tag
highlight default link urwebAttribute Identifier
highlight default link urwebAttributeText String
highlight default link urwebEntity SpecialChar
highlight default link urwebSpliceEnd Delimiter

let b:current_syntax = 'urweb'
