" Vim syntax file
" Language: documents of IPA

if exists("b:current_syntax")
  finish
endif

syntax match ipaBad /\S.*/
syntax match ipaComment /^\s*#.*/
syntax match ipaLine /^\s*\(sort\|const\|pred\|clause\|op\|need\|add\|del\|bound\|drops\|elem\|base\|replicas\|session\|do\|show\)\>.*/ contains=ipaHead,ipaNumber,ipaWord,ipaSign
syntax match ipaHead /^\s*\h\w*/ contained nextgroup=ipaName skipwhite
syntax match ipaName /\h\w*/ contained
syntax match ipaNumber /\<\d\+\>/ contained
syntax keyword ipaWord addwins remwins not or exists counts most youngest contained
syntax match ipaSign /!=\|[=*:]/ contained

highlight default link ipaBad Error
highlight default link ipaComment Comment
highlight default link ipaHead Keyword
highlight default link ipaName Identifier
highlight default link ipaNumber Number
highlight default link ipaWord Operator
highlight default link ipaSign Operator

let b:current_syntax = "ipa"
