" Vim and Neovim: highlighting of templates of tmpl. At one place the item that stands last here counts, and a keyword before all.
if exists("b:current_syntax")
  finish
endif
syntax case match
syntax iskeyword @,48-57,_,128-255
syntax region gotmplAction matchgroup=gotmplDelimiter start=+{{\%(-\%([ \t\r]\|$\)\@=\)\?+ end=+\%(\%(^\|[ \t\r]\)\@1<=-\)\?}}+
      \ contains=@gotmplParts
syntax region gotmplComment start=+{{\%(-[ \t\r]\)\?/\*+ end=+\*/\%([ \t\r]-\)\?}}+
syntax cluster gotmplParts contains=gotmplError,gotmplUnknown,gotmplBadNumber,gotmplNumber,gotmplDot,gotmplField,gotmplVariable,
      \gotmplOperator,gotmplParens,gotmplCharacter,gotmplString,gotmplRaw,gotmplKeyword,gotmplFunction,gotmplConstant
syntax match gotmplError contained +[^ \t\r]+
syntax match gotmplUnknown contained +\%([0-9A-Za-z_]\|[^\x00-\x7f]\)\++
syntax match gotmplBadNumber contained +[+-]\?[0-9]\%([0-9A-Za-z_.]\|[^\x00-\x7f]\)*+
syntax match gotmplNumber contained
      \ +[+-]\?\%(0[xX]\%(_\?\x\)\+\|0[bB]\%(_\?[01]\)\+\|0[oO]\?\%(_\?\o\)\+\|0\|[1-9]\%(_\?\d\)*\)\%([0-9A-Za-z_.]\|[^\x00-\x7f]\)\@!+
syntax match gotmplDot contained +\.+
syntax match gotmplField contained +\.\%([0-9A-Za-z_]\|[^\x00-\x7f]\)\++
syntax match gotmplVariable contained +\$\%([0-9A-Za-z_]\|[^\x00-\x7f]\)*+
syntax match gotmplOperator contained +:=\|[=|,]+
syntax match gotmplError contained +==\|||+
syntax match gotmplParens contained +[()]+
syntax match gotmplCharacter contained +'\%([^'\\]\+\|\\\%([abfnrtv\\']\|[0-3]\o\{2}\|x\x\{2}\|u\x\{4}\|U\x\{8}\)\)'+
syntax region gotmplString contained oneline start=+"+ skip=+\\.+ end=+"+ contains=gotmplEscape,gotmplBadEscape
syntax match gotmplBadEscape contained +\\.+
syntax match gotmplEscape contained +\\\%([abfnrtv\\"]\|[0-3]\o\{2}\|x\x\{2}\|u\x\{4}\|U\x\{8}\)+
syntax region gotmplRaw contained start=+`+ end=+`+
syntax keyword gotmplKeyword contained if else end range with break continue define template block
syntax keyword gotmplFunction contained and or not len index slice print println printf html urlquery eq ne lt le gt ge
syntax keyword gotmplConstant contained true false nil
highlight default link gotmplDelimiter Special
highlight default link gotmplComment Comment
highlight default link gotmplKeyword Statement
highlight default link gotmplFunction Function
highlight default link gotmplConstant Constant
highlight default link gotmplNumber Number
highlight default link gotmplCharacter Character
highlight default link gotmplString String
highlight default link gotmplRaw String
highlight default link gotmplEscape SpecialChar
highlight default link gotmplField Identifier
highlight default link gotmplDot Identifier
highlight default link gotmplVariable Identifier
highlight default link gotmplOperator Operator
highlight default link gotmplParens Delimiter
highlight default link gotmplUnknown Error
highlight default link gotmplBadNumber Error
highlight default link gotmplBadEscape Error
highlight default link gotmplError Error
let b:current_syntax = "gotmpl"
