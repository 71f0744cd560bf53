" Verifies the file with caper by :make. The program is the one that g:caper_program names, or the
" environment as CAPER, or else `caper` on the path.

if exists('g:current_compiler')
  finish
endif
let g:current_compiler = 'caper'

let s:save_cpo = &cpo
set cpo&vim

if exists(':CompilerSet') != 2
  command -nargs=* CompilerSet setlocal <args>
endif

" The answers tell no file, so its name goes before them.
let s:program = get(g:, 'caper_program', empty($CAPER) ? 'caper' : $CAPER)
let s:words = '(printf "file \%s\n" %:S; ' . escape(shellescape(s:program), '%#!|') . ' verify $* -- %:S)'
execute 'CompilerSet makeprg=' . escape(s:words, ' \|"')

" The answers of caper, and those of editors/places.
CompilerSet errorformat=
      \%-Pfile\ %f,
      \%E%o:\ open\ %l:%c\ %m,
      \%Erefused\ %l:%c:\ %m,
      \%f:%l:%c:\ %trror:\ %m,
      \%f:%l:%c:\ %tnfo:\ %m,
      \%-G%.%#:\ proved,
      \%-Gproved\ %.%#

let &cpo = s:save_cpo
unlet s:save_cpo
