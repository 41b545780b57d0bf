" Vim syntax file
" Language: texts of vocabularies and scripts, as desk reads them (docs/DESK.md)

if exists("b:current_syntax")
  finish
endif

syntax case match

" The header, and lines that say what something is called.
syntax keyword judgeHeader vocabulary script roles edition within
syntax keyword judgeNaming name role
" Terms and statements, in OWL 2 functional syntax.
syntax keyword judgeTerm ObjectComplementOf ObjectIntersectionOf ObjectUnionOf ObjectSomeValuesFrom ObjectAllValuesFrom
syntax keyword judgeStatement SubClassOf EquivalentClasses DisjointClasses ObjectPropertyDomain ObjectPropertyRange
syntax match judgeOwl "\<owl:\%(Thing\|Nothing\)\>"
" Steps of a script.
syntax keyword judgeStep start extend reduce
syntax keyword judgePart owner column x y at
" What may stand before and behind, and records by their numbers.
syntax keyword judgeLink off next first
syntax keyword judgeRaw raw

syntax match judgeNumber "\<\d\+\>"
syntax match judgeLineNumber "^\s*\d\+:"
syntax match judgeName "\<c\d\+\>"
syntax match judgeRole "\<r\d\+\>"
syntax match judgeRecord "#\d\+\>"
syntax match judgeFunction "\<f\d\+\>"
syntax keyword judgeConstant a

syntax match judgeComment "--.*$" contains=@Spell
syntax match judgeEscape "\\." contained
syntax region judgeString start=+"+ skip=+\\.+ end=+"+ oneline contains=judgeEscape,@Spell

highlight default link judgeHeader PreProc
highlight default link judgeNaming PreProc
highlight default link judgeTerm Function
highlight default link judgeStatement Statement
highlight default link judgeOwl Constant
highlight default link judgeStep Statement
highlight default link judgePart Keyword
highlight default link judgeLink Keyword
highlight default link judgeRaw Special
highlight default link judgeNumber Number
highlight default link judgeLineNumber LineNr
highlight default link judgeName Identifier
highlight default link judgeRole Type
highlight default link judgeRecord Tag
highlight default link judgeFunction Function
highlight default link judgeConstant Constant
highlight default link judgeComment Comment
highlight default link judgeEscape SpecialChar
highlight default link judgeString String

let b:current_syntax = "judge"
