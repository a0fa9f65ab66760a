" Compiler: pcom, of Waupikoe. `:compiler pcom`, then `:make`; what stands behind `:make` goes in front of the source.
if exists("current_compiler")
  finish
endif
let current_compiler = "pcom"

let s:save_cpo = &cpo
set cpo&vim

" The script editors/pcom-lines, from this file's own place; a file that is copied elsewhere takes it from the path.
let s:lines = fnamemodify(resolve(expand("<sfile>:p")), ":h:h:h") . "/pcom-lines"
let s:lines = executable(s:lines) ? shellescape(s:lines) : "pcom-lines"
execute "CompilerSet makeprg=" . escape(s:lines . " $* %:S", ' \|"')

" Open sites are warnings, refusals and stops errors; the last form is that of the lines of a certificate.
CompilerSet errorformat=%W%f:%l:%c:\ %\\%%(possible\ error:\ %\\)%\\@=%m,
      \%E%f:%l:%c:\ %\\%%(error:\ %\\\|input:\ %\\\|refused\ %\\\|certificate\ refused\ %\\)%\\@=%m,
      \%E%f:%l:\ %\\%%(refused\ F%\\)%\\@=%m

let &cpo = s:save_cpo
unlet s:save_cpo s:lines
