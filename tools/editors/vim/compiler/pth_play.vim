" Vim compiler file: refusals of pth_play. tools/editors/make writes this file from the definitions in crates/*/specs.
" :make tries the script without running it. g:pth_play is the program, for example '/path/to/play'; `pth_play` by default.
if exists("current_compiler")
  finish
endif
let current_compiler = "pth_play"

" The first line that :make prints is the name of the file, to which the line of pth_play belongs. ./play adds indented lines.
let s:program = get(g:, 'pth_play', 'pth_play')
execute 'CompilerSet makeprg=' . escape('(echo %:S; ' . s:program . ' --upgrade %:S 2>&1 >/dev/null)', ' "|\')
CompilerSet errorformat=%-P%f,
      \%Epth_play:\ line\ %l:\ %m,
      \%-C%f:%l:\ %.%#,
      \%C\ %\\+%m,
      \%-Gpth:\ %.%#
