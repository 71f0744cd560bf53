" Colours for texts of the verifier caper.

if exists('b:current_syntax')
  finish
endif

let s:save_cpo = &cpo
set cpo&vim

syn case match
syn iskeyword @,48-57,_
syn sync fromstart

syn match caperComment "//.*$"

" What terms are made of. Of matches at one place the last one counts.
syn match caperVariable contained "\<\a\w*\>"
syn keyword caperResult contained ret
syn match caperError contained "\<[0-9_]\w*\>"
syn match caperNumber contained "\<\d\+\>"
syn match caperShare contained "\<1p\>"
syn match caperWildcard contained "\<_\>"
syn match caperOperator contained "[-+*=<>]\|!=\|<=\|>="
syn region caperParens contained transparent start="(" end=")" end="\ze[;{}]" end="\ze\<\%(region\|function\)\>" contains=@caperTerm
syn region caperBrackets contained transparent start="\[" end="]" end="\ze[;{}]" end="\ze\<\%(region\|function\)\>" contains=@caperTerm
syn cluster caperTerm contains=caperComment,caperVariable,caperResult,caperError,caperNumber,caperShare,caperWildcard,caperOperator,caperParens,caperBrackets

" Guards: an algebra, and the atoms that are held or asked for.
syn match caperGuard contained "\<\a\w*\>"
syn match caperGuardOperator contained "[%|*+]"
syn keyword caperCount contained src tok at from
syn region caperAtomParens contained transparent start="(" end=")" end="\ze[;{}]" end="\ze\<\%(region\|function\)\>" contains=@caperAtoms
syn cluster caperAtoms contains=caperComment,caperGuard,caperGuardOperator,caperCount,caperBrackets,caperAtomParens
syn region caperHeld contained matchgroup=caperGuardOperator start="@" matchgroup=NONE end="\ze\%(&\*&\|[;{})]\)" end="\ze\<\%(region\|function\)\>" contains=@caperAtoms

" The name of a function that is declared; clauses begin beside it, and so count before it.
syn match caperFunctionName contained "\<\a\w*\>"

" Assertions.
syn keyword caperBoolean contained true false
syn match caperOperator contained "&\*&\||->\|?\|\~>\|:="
syn match caperRegion contained "\<\a\w*\>\ze\s*(" nextgroup=caperFact skipwhite
syn region caperFact contained transparent start="(" end=")" end="\ze[{}]" end="\ze\<\%(region\|function\)\>" contains=@caperTerm
syn region caperBraces contained transparent start="{" end="}" end="\ze\<\%(region\|function\)\>" contains=@caperAssertion
syn cluster caperAssertion contains=@caperTerm,caperBoolean,caperRegion,caperHeld,caperBraces
syn region caperClauseOf contained matchgroup=caperClause start="\<\%(requires\|ensures\|invariant\)\>" matchgroup=NONE end=";" end="\ze}" end="\ze\<\%(region\|function\)\>" contains=@caperAssertion

" The header of a text of the second version.
syn match caperHeader "\<caper\>\ze\s\+2\s*;" nextgroup=caperVersion skipwhite
syn match caperVersion contained "2" nextgroup=caperHeaderEnd skipwhite
syn match caperHeaderEnd contained ";"

" Region types.
syn keyword caperClause contained when
syn match caperTypeName contained "\<\a\w*\>"
syn match caperParameter contained "\<\a\w*\>"
syn region caperParameters contained transparent start="(" end=")" end="\ze[{};]" end="\ze\<\%(region\|function\)\>" contains=caperComment,caperParameter
syn match caperIndexed contained "[][]"
syn region caperAlgebra contained matchgroup=caperClause start="\<guards\>" matchgroup=NONE end=";" end="\ze}" end="\ze\<\%(region\|function\|interpretation\|actions\)\>" contains=caperComment,caperGuard,caperGuardOperator,caperIndexed
syn region caperCase contained transparent start=":" end=";" end="\ze}" end="\ze\<\%(region\|function\|actions\)\>" contains=@caperAssertion
syn region caperCases contained transparent start="{" end="}"me=s-1 end="\ze\<\%(region\|function\|actions\)\>" contains=@caperTerm,caperClause,caperCase
syn region caperInterpretation contained matchgroup=caperClause start="\<interpretation\>" matchgroup=NONE end="}" end="\ze\<\%(region\|function\|actions\)\>" contains=caperComment,caperCases
syn region caperChange contained transparent start=":" end=";" end="\ze}" end="\ze\<\%(region\|function\)\>" contains=@caperTerm,caperClause
syn region caperChanges contained transparent start="{" end="}"me=s-1 end="\ze\<\%(region\|function\)\>" contains=@caperAtoms,caperChange
syn region caperActions contained matchgroup=caperClause start="\<actions\>" matchgroup=NONE end="}" end="\ze\<\%(region\|function\)\>" contains=caperComment,caperChanges
syn region caperTypeBody contained transparent start="{" end="}"me=s-1 end="\ze\<\%(region\|function\)\>" contains=caperComment,caperAlgebra,caperInterpretation,caperActions
syn region caperTypeOf matchgroup=caperDeclaration start="\<region\>" matchgroup=NONE end="}" end="\ze\<\%(region\|function\)\>" contains=caperComment,caperParameters,caperTypeBody,caperTypeName

" Functions.
syn keyword caperStatement contained fork if else while assert return dispose
syn keyword caperBuiltin contained alloc CAS FAA
syn match caperCall contained "\<\a\w*\>\ze\s*("
syn region caperBlock contained transparent start="{" end="}" end="\ze\<\%(region\|function\)\>" contains=@caperStatements
syn region caperBody contained transparent start="{" end="}"me=s-1 end="\ze\<\%(region\|function\)\>" contains=@caperStatements
syn cluster caperStatements contains=@caperTerm,caperStatement,caperBuiltin,caperCall,caperClauseOf,caperBlock
syn region caperFunctionOf matchgroup=caperDeclaration start="\<function\>" matchgroup=NONE end="}" end="\ze\<\%(region\|function\)\>" contains=caperComment,caperParameters,caperClauseOf,caperBody,caperFunctionName

hi def link caperComment Comment
hi def link caperDeclaration Structure
hi def link caperClause Keyword
hi def link caperHeader Keyword
hi def link caperVersion Number
hi def link caperIndexed Operator
hi def link caperStatement Statement
hi def link caperBuiltin Function
hi def link caperBoolean Boolean
hi def link caperCount StorageClass
hi def link caperNumber Number
hi def link caperShare Number
hi def link caperWildcard Special
hi def link caperResult Special
hi def link caperOperator Operator
hi def link caperGuardOperator Operator
hi def link caperGuard Constant
hi def link caperRegion Type
hi def link caperTypeName Type
hi def link caperFunctionName Function
hi def link caperCall Function
hi def link caperError Error

let b:current_syntax = 'caper'

let &cpo = s:save_cpo
unlet s:save_cpo
