" Vim compiler file: after `:compiler epass`, `:make` checks the script at hand, and the cursor goes to what is refused.
if exists("current_compiler")
  finish
endif
let current_compiler = "epass"

CompilerSet makeprg=epass\ --check\ %:S
CompilerSet errorformat=%f:%l:%c:\ %m,%-G%f:\ accepted%.%#
