" Vim compiler file
" Language: Sapper. `:compiler sapper`, then `:make`: faults of the design that is edited, and what is hardly meant in it.
" The lattice is b:sapper_lattice, g:sapper_lattice, or the nearest lattice.toml.

if exists("current_compiler")
  finish
endif
let current_compiler = "sapper"

if exists(":CompilerSet") != 2
  command -nargs=* CompilerSet setlocal <args>
endif

let s:lattice = get(b:, "sapper_lattice", get(g:, "sapper_lattice", findfile("lattice.toml", expand("%:p:h") . ";")))
let s:beside = expand("<sfile>:p:h:h:h:h") . "/flow/lint"
let s:lint = executable("sapper-lint") ? "sapper-lint" : s:beside
let &l:makeprg = join(map([s:lint, empty(s:lattice) ? "lattice.toml" : s:lattice], "shellescape(v:val)")) . " %:S"
CompilerSet errorformat=%f:%l:%c:\ %trror:\ %m,%f:%l:%c:\ %tarning:\ %m
