" Answers, as drsim prints them. Written by tools/syntax.py from docs/COMMANDS.md and docs/ANSWERS.md.
if exists("b:current_syntax")
  finish
endif
syn case match
syn match dscliLineNumber /^\d\+\ze /
syn match dscliDone /\%(^\d\+ \)\@<=ok\ze\%(\s\|$\)/
syn match dscliHeld /\%(^\d\+ \)\@<=held\ze\%(\s\|$\)/
syn match dscliRefused /\%(^\d\+ \)\@<=E01 \%(syntax\)\>/
syn match dscliRefused /\%(^\d\+ \)\@<=E02 \%(unknown message\|unknown session\|unknown server\|unknown volume\|unknown track\|unknown write\|unknown path\|unknown lss\)\>/
syn match dscliRefused /\%(^\d\+ \)\@<=E03 \%(duplicate session\|duplicate master\|duplicate server\|duplicate volume\|duplicate lss\)\>/
syn match dscliRefused /\%(^\d\+ \)\@<=E04 \%(limit messages\|limit sessions\|limit pending\|limit servers\|limit targets\|limit volumes\|limit groups\|limit server\|limit tracks\|limit size\)\>/
syn match dscliRefused /\%(^\d\+ \)\@<=E05 \%(server off\)\>/
syn match dscliRefused /\%(^\d\+ \)\@<=E06 \%(link down\)\>/
syn match dscliRefused /\%(^\d\+ \)\@<=E07 \%(void\)\>/
syn match dscliRefused /\%(^\d\+ \)\@<=E08 \%(not primary\)\>/
syn match dscliRefused /\%(^\d\+ \)\@<=E09 \%(inhibited\)\>/
syn match dscliRefused /\%(^\d\+ \)\@<=E10 \%(pair state\)\>/
syn match dscliRefused /\%(^\d\+ \)\@<=E11 \%(relation state\)\>/
syn match dscliRefused /\%(^\d\+ \)\@<=E12 \%(in session\)\>/
syn match dscliRefused /\%(^\d\+ \)\@<=E13 \%(not in session\)\>/
syn match dscliRefused /\%(^\d\+ \)\@<=E14 \%(in formation\)\>/
syn match dscliRefused /\%(^\d\+ \)\@<=E15 \%(out of order none\|out of order\)\>/
syn match dscliRefused /\%(^\d\+ \)\@<=E16 \%(unsealed\)\>/
syn match dscliRefused /\%(^\d\+ \)\@<=E17 \%(stale\)\>/
syn match dscliRefused /\%(^\d\+ \)\@<=E18 \%(decision\)\>/
syn match dscliRefused /\%(^\d\+ \)\@<=E19 \%(not identical\)\>/
syn match dscliRefused /\%(^\d\+ \)\@<=E20 \%(numbers spent\)\>/
syn match dscliRefused /\%(^\d\+ \)\@<=E21 \%(stopped\)\>/
syn match dscliRefused /\%(^\d\+ \)\@<=E22 \%(no group\)\>/
syn match dscliRefused /\%(^\d\+ \)\@<=E23 \%(journal full\)\>/
syn match dscliRefused /\%(^\d\+ \)\@<=E25 \%(old message\)\>/
syn match dscliRefused /\%(^\d\+ \)\@<=E26 \%(held\)\>/
syn match dscliState /\<\%(CommitRest\|Committing\|Coordinating\|Copy Pending\|Draining\|Finishing\|Flashing\|Full Duplex\|Idle\|Impossible\|Lost\|NoMember\|Nothing\|Releasing\|RevertAll\|RevertSome\|Reverting\|Suspended\|Target\)\>/
hi def link dscliLineNumber LineNr
hi def link dscliDone Statement
hi def link dscliHeld Todo
hi def link dscliRefused WarningMsg
hi def link dscliState Constant
let b:current_syntax = "dscli_answers"
