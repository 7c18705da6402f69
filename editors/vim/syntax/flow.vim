" Vim syntax file: workflows of flow, with the second part behind a line %% (a session, a query, a journal, a policy).
" To use it: copy editors/vim to ~/.vim, or set runtimepath+=FOLDER/editors/vim.
" The words are compared with the code by bench/words.py.

if exists('b:current_syntax')
  finish
endif

syntax case match

" reserved words
syntax keyword flowDeclaration fact event flow goal constraint
syntax keyword flowNote done fail
syntax keyword flowStep nop iso ins del
syntax keyword flowRule must never order precedes needs
syntax keyword flowJoin not and or
syntax keyword flowQuery holds redundant

syntax match flowNumber /\<\d\+\>/
syntax match flowOperator /[*|+=?!]/
syntax match flowRelation /\<\a\w*\ze(/
syntax match flowComment /#.*$/ contains=flowTodo,@Spell
syntax keyword flowTodo contained TODO FIXME XXX
" only ASCII may stand in a text, in comments too
syntax match flowForeign /[^\x00-\x7f]/ containedin=flowComment

" commands of a session
syntax keyword flowCommand contained take do done fail rewind commit next enabled journal facts
syntax keyword flowCommand contained as
" statements of a policy, which are names elsewhere; the last three are those of a case's policy
syntax keyword flowPolicy contained role allow separate bind final back close
syntax match flowDivider contained /^%%\r\?$/
syntax region flowSecond start=/^%%\r\?$/ end=/\%$/
      \ contains=flowDivider,flowCommand,flowPolicy,flowStep,flowRule,flowJoin,flowQuery,flowNumber,flowOperator,flowRelation,flowForeign

highlight default link flowDeclaration Keyword
highlight default link flowNote Special
highlight default link flowStep Function
highlight default link flowRule Conditional
highlight default link flowJoin Operator
highlight default link flowQuery Statement
highlight default link flowNumber Number
highlight default link flowOperator Operator
highlight default link flowRelation Identifier
highlight default link flowComment Comment
highlight default link flowTodo Todo
highlight default link flowForeign Error
highlight default link flowDivider PreProc
highlight default link flowCommand Statement
highlight default link flowPolicy Statement

let b:current_syntax = 'flow'
