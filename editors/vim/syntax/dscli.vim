" Scripts, as drsim reads them. Written by tools/syntax.py from docs/COMMANDS.md and docs/ANSWERS.md.
if exists("b:current_syntax")
  finish
endif
syn case match
syn match dscliBadCommand /^\s*\S\+/
syn match dscliComment /^#.*/ contains=dscliCode
syn match dscliPlan /^#sweep\>.*/
syn region dscliImage start=/^image 1$/ end=/^end$/
syn match dscliCode /\<\%(E01\|E02\|E03\|E04\|E05\|E06\|E07\|E08\|E09\|E10\|E11\|E12\|E13\|E14\|E15\|E16\|E17\|E18\|E19\|E20\|E21\|E22\|E23\|E25\|E26\)\>/ contained
syn match dscliBadOption /\s\@1<=-\S*/ contained
syn match dscliNumber /\s\@1<=\%(\d\+\|\x\x\+\)\ze\%(\s\|$\)/ contained
syn match dscliVolume /\s\@1<=\%(\x\{4}\%([-,:]\x\{4}\)*\|\x\x:\x\x\)\ze\%(\s\|$\)/ contained
syn match dscliPort /\s\@1<=I\x\{4}:I\x\{4}\ze\%(\s\|$\)/ contained
syn region dscliLine matchgroup=dscliCommand start=/^\s*@abort\ze\%(\s\|$\)/ end=/$/ oneline keepend contains=dscliBadOption,dscliNumber,dscliVolume,dscliPort
syn region dscliLine matchgroup=dscliCommand start=/^\s*@apply\ze\%(\s\|$\)/ end=/$/ oneline keepend contains=dscliBadOption,dscliNumber,dscliVolume,dscliPort
syn region dscliLine matchgroup=dscliCommand start=/^\s*@compare\ze\%(\s\|$\)/ end=/$/ oneline keepend contains=dscliBadOption,dscliNumber,dscliVolume,dscliPort
syn region dscliLine matchgroup=dscliCommand start=/^\s*@copy\ze\%(\s\|$\)/ end=/$/ oneline keepend contains=dscliBadOption,dscliNumber,dscliVolume,dscliPort,dscliWord_Atcopy
syn match dscliWord_Atcopy /\s\@1<=\%(all\)\ze\%(\s\|$\)/ contained
hi def link dscliWord_Atcopy dscliWord
syn region dscliLine matchgroup=dscliCommand start=/^\s*@deliver\ze\%(\s\|$\)/ end=/$/ oneline keepend contains=dscliBadOption,dscliNumber,dscliVolume,dscliPort
syn region dscliLine matchgroup=dscliCommand start=/^\s*@destage\ze\%(\s\|$\)/ end=/$/ oneline keepend contains=dscliBadOption,dscliNumber,dscliVolume,dscliPort
syn region dscliLine matchgroup=dscliCommand start=/^\s*@drain\ze\%(\s\|$\)/ end=/$/ oneline keepend contains=dscliBadOption,dscliNumber,dscliVolume,dscliPort,dscliWord_Atdrain
syn match dscliWord_Atdrain /\s\@1<=\%(all\)\ze\%(\s\|$\)/ contained
hi def link dscliWord_Atdrain dscliWord
syn region dscliLine matchgroup=dscliCommand start=/^\s*@exchange\ze\%(\s\|$\)/ end=/$/ oneline keepend contains=dscliBadOption,dscliNumber,dscliVolume,dscliPort,dscliWord_Atexchange
syn match dscliWord_Atexchange /\s\@1<=\%(noreply\)\ze\%(\s\|$\)/ contained
hi def link dscliWord_Atexchange dscliWord
syn region dscliLine matchgroup=dscliCommand start=/^\s*@expire\ze\%(\s\|$\)/ end=/$/ oneline keepend contains=dscliBadOption,dscliNumber,dscliVolume,dscliPort
syn region dscliLine matchgroup=dscliCommand start=/^\s*@image\ze\%(\s\|$\)/ end=/$/ oneline keepend contains=dscliBadOption,dscliNumber,dscliVolume,dscliPort
syn region dscliLine matchgroup=dscliCommand start=/^\s*@issue\ze\%(\s\|$\)/ end=/$/ oneline keepend contains=dscliBadOption,dscliNumber,dscliVolume,dscliPort
syn region dscliLine matchgroup=dscliCommand start=/^\s*@link\ze\%(\s\|$\)/ end=/$/ oneline keepend contains=dscliBadOption,dscliNumber,dscliVolume,dscliPort,dscliWord_Atlink
syn match dscliWord_Atlink /\s\@1<=\%(down\|up\)\ze\%(\s\|$\)/ contained
hi def link dscliWord_Atlink dscliWord
syn region dscliLine matchgroup=dscliCommand start=/^\s*@lose\ze\%(\s\|$\)/ end=/$/ oneline keepend contains=dscliBadOption,dscliNumber,dscliVolume,dscliPort
syn region dscliLine matchgroup=dscliCommand start=/^\s*@recover\ze\%(\s\|$\)/ end=/$/ oneline keepend contains=dscliBadOption,dscliNumber,dscliVolume,dscliPort
syn region dscliLine matchgroup=dscliCommand start=/^\s*@run\ze\%(\s\|$\)/ end=/$/ oneline keepend contains=dscliBadOption,dscliNumber,dscliVolume,dscliPort
syn region dscliLine matchgroup=dscliCommand start=/^\s*@send\ze\%(\s\|$\)/ end=/$/ oneline keepend contains=dscliBadOption,dscliNumber,dscliVolume,dscliPort
syn region dscliLine matchgroup=dscliCommand start=/^\s*@server\ze\%(\s\|$\)/ end=/$/ oneline keepend contains=dscliBadOption,dscliNumber,dscliVolume,dscliPort
syn region dscliLine matchgroup=dscliCommand start=/^\s*@show\ze\%(\s\|$\)/ end=/$/ oneline keepend contains=dscliBadOption,dscliNumber,dscliVolume,dscliPort
syn region dscliLine matchgroup=dscliCommand start=/^\s*@start\ze\%(\s\|$\)/ end=/$/ oneline keepend contains=dscliBadOption,dscliNumber,dscliVolume,dscliPort
syn region dscliLine matchgroup=dscliCommand start=/^\s*@stop\ze\%(\s\|$\)/ end=/$/ oneline keepend contains=dscliBadOption,dscliNumber,dscliVolume,dscliPort,dscliWord_Atstop
syn match dscliWord_Atstop /\s\@1<=\%(after\|none\|torn\)\ze\%(\s\|$\)/ contained
hi def link dscliWord_Atstop dscliWord
syn region dscliLine matchgroup=dscliCommand start=/^\s*@volume\ze\%(\s\|$\)/ end=/$/ oneline keepend contains=dscliBadOption,dscliNumber,dscliVolume,dscliPort
syn region dscliLine matchgroup=dscliCommand start=/^\s*@write\ze\%(\s\|$\)/ end=/$/ oneline keepend contains=dscliBadOption,dscliNumber,dscliVolume,dscliPort
syn region dscliLine matchgroup=dscliCommand start=/^\s*chsession\ze\%(\s\|$\)/ end=/$/ oneline keepend contains=dscliBadOption,dscliNumber,dscliVolume,dscliPort,dscliOption_chsession,dscliWord_chsession
syn match dscliOption_chsession /\s\@1<=\%(-action\|-dev\|-lss\|-quiet\|-remotedev\|-volume\)\ze\%(\s\|$\)/ contained
hi def link dscliOption_chsession dscliOption
syn match dscliWord_chsession /\s\@1<=\%(add\|remove\)\ze\%(\s\|$\)/ contained
hi def link dscliWord_chsession dscliWord
syn region dscliLine matchgroup=dscliCommand start=/^\s*commitflash\ze\%(\s\|$\)/ end=/$/ oneline keepend contains=dscliBadOption,dscliNumber,dscliVolume,dscliPort,dscliOption_commitflash
syn match dscliOption_commitflash /\s\@1<=\%(-dev\|-quiet\|-remotedev\|-seqnum\)\ze\%(\s\|$\)/ contained
hi def link dscliOption_commitflash dscliOption
syn region dscliLine matchgroup=dscliCommand start=/^\s*failbackpprc\ze\%(\s\|$\)/ end=/$/ oneline keepend contains=dscliBadOption,dscliNumber,dscliVolume,dscliPort,dscliOption_failbackpprc,dscliWord_failbackpprc
syn match dscliOption_failbackpprc /\s\@1<=\%(-dev\|-quiet\|-remotedev\|-type\)\ze\%(\s\|$\)/ contained
hi def link dscliOption_failbackpprc dscliOption
syn match dscliWord_failbackpprc /\s\@1<=\%(gcp\|mmir\)\ze\%(\s\|$\)/ contained
hi def link dscliWord_failbackpprc dscliWord
syn region dscliLine matchgroup=dscliCommand start=/^\s*failoverpprc\ze\%(\s\|$\)/ end=/$/ oneline keepend contains=dscliBadOption,dscliNumber,dscliVolume,dscliPort,dscliOption_failoverpprc,dscliWord_failoverpprc
syn match dscliOption_failoverpprc /\s\@1<=\%(-dev\|-quiet\|-remotedev\|-type\)\ze\%(\s\|$\)/ contained
hi def link dscliOption_failoverpprc dscliOption
syn match dscliWord_failoverpprc /\s\@1<=\%(gcp\|mmir\)\ze\%(\s\|$\)/ contained
hi def link dscliWord_failoverpprc dscliWord
syn region dscliLine matchgroup=dscliCommand start=/^\s*freezepprc\ze\%(\s\|$\)/ end=/$/ oneline keepend contains=dscliBadOption,dscliNumber,dscliVolume,dscliPort,dscliOption_freezepprc
syn match dscliOption_freezepprc /\s\@1<=\%(-dev\|-quiet\|-remotedev\)\ze\%(\s\|$\)/ contained
hi def link dscliOption_freezepprc dscliOption
syn region dscliLine matchgroup=dscliCommand start=/^\s*lsflash\ze\%(\s\|$\)/ end=/$/ oneline keepend contains=dscliBadOption,dscliNumber,dscliVolume,dscliPort,dscliOption_lsflash
syn match dscliOption_lsflash /\s\@1<=\%(-dev\|-quiet\|-remotedev\)\ze\%(\s\|$\)/ contained
hi def link dscliOption_lsflash dscliOption
syn region dscliLine matchgroup=dscliCommand start=/^\s*lspprc\ze\%(\s\|$\)/ end=/$/ oneline keepend contains=dscliBadOption,dscliNumber,dscliVolume,dscliPort,dscliOption_lspprc
syn match dscliOption_lspprc /\s\@1<=\%(-dev\|-quiet\|-remotedev\)\ze\%(\s\|$\)/ contained
hi def link dscliOption_lspprc dscliOption
syn region dscliLine matchgroup=dscliCommand start=/^\s*lssession\ze\%(\s\|$\)/ end=/$/ oneline keepend contains=dscliBadOption,dscliNumber,dscliVolume,dscliPort,dscliOption_lssession
syn match dscliOption_lssession /\s\@1<=\%(-dev\|-quiet\|-remotedev\)\ze\%(\s\|$\)/ contained
hi def link dscliOption_lssession dscliOption
syn region dscliLine matchgroup=dscliCommand start=/^\s*mkflash\ze\%(\s\|$\)/ end=/$/ oneline keepend contains=dscliBadOption,dscliNumber,dscliVolume,dscliPort,dscliOption_mkflash
syn match dscliOption_mkflash /\s\@1<=\%(-dev\|-freeze\|-nocp\|-persist\|-quiet\|-record\|-remotedev\|-seqnum\|-tgtinhibit\)\ze\%(\s\|$\)/ contained
hi def link dscliOption_mkflash dscliOption
syn region dscliLine matchgroup=dscliCommand start=/^\s*mkgmir\ze\%(\s\|$\)/ end=/$/ oneline keepend contains=dscliBadOption,dscliNumber,dscliVolume,dscliPort,dscliOption_mkgmir
syn match dscliOption_mkgmir /\s\@1<=\%(-cginterval\|-coordinate\|-dev\|-drain\|-lss\|-quiet\|-remotedev\|-session\)\ze\%(\s\|$\)/ contained
hi def link dscliOption_mkgmir dscliOption
syn region dscliLine matchgroup=dscliCommand start=/^\s*mkpprc\ze\%(\s\|$\)/ end=/$/ oneline keepend contains=dscliBadOption,dscliNumber,dscliVolume,dscliPort,dscliOption_mkpprc,dscliWord_mkpprc
syn match dscliOption_mkpprc /\s\@1<=\%(-cascade\|-dev\|-mode\|-quiet\|-remotedev\|-type\)\ze\%(\s\|$\)/ contained
hi def link dscliOption_mkpprc dscliOption
syn match dscliWord_mkpprc /\s\@1<=\%(full\|gcp\|mmir\|nocp\)\ze\%(\s\|$\)/ contained
hi def link dscliWord_mkpprc dscliWord
syn region dscliLine matchgroup=dscliCommand start=/^\s*mkpprcpath\ze\%(\s\|$\)/ end=/$/ oneline keepend contains=dscliBadOption,dscliNumber,dscliVolume,dscliPort,dscliOption_mkpprcpath
syn match dscliOption_mkpprcpath /\s\@1<=\%(-consistgrp\|-dev\|-quiet\|-remotedev\|-remotewwnn\|-srclss\|-tgtlss\)\ze\%(\s\|$\)/ contained
hi def link dscliOption_mkpprcpath dscliOption
syn region dscliLine matchgroup=dscliCommand start=/^\s*mksession\ze\%(\s\|$\)/ end=/$/ oneline keepend contains=dscliBadOption,dscliNumber,dscliVolume,dscliPort,dscliOption_mksession
syn match dscliOption_mksession /\s\@1<=\%(-dev\|-lss\|-quiet\|-remotedev\|-volume\)\ze\%(\s\|$\)/ contained
hi def link dscliOption_mksession dscliOption
syn region dscliLine matchgroup=dscliCommand start=/^\s*pausegmir\ze\%(\s\|$\)/ end=/$/ oneline keepend contains=dscliBadOption,dscliNumber,dscliVolume,dscliPort,dscliOption_pausegmir
syn match dscliOption_pausegmir /\s\@1<=\%(-dev\|-lss\|-quiet\|-remotedev\|-session\)\ze\%(\s\|$\)/ contained
hi def link dscliOption_pausegmir dscliOption
syn region dscliLine matchgroup=dscliCommand start=/^\s*pausepprc\ze\%(\s\|$\)/ end=/$/ oneline keepend contains=dscliBadOption,dscliNumber,dscliVolume,dscliPort,dscliOption_pausepprc
syn match dscliOption_pausepprc /\s\@1<=\%(-dev\|-quiet\|-remotedev\)\ze\%(\s\|$\)/ contained
hi def link dscliOption_pausepprc dscliOption
syn region dscliLine matchgroup=dscliCommand start=/^\s*resumegmir\ze\%(\s\|$\)/ end=/$/ oneline keepend contains=dscliBadOption,dscliNumber,dscliVolume,dscliPort,dscliOption_resumegmir
syn match dscliOption_resumegmir /\s\@1<=\%(-dev\|-lss\|-quiet\|-remotedev\|-session\)\ze\%(\s\|$\)/ contained
hi def link dscliOption_resumegmir dscliOption
syn region dscliLine matchgroup=dscliCommand start=/^\s*resumepprc\ze\%(\s\|$\)/ end=/$/ oneline keepend contains=dscliBadOption,dscliNumber,dscliVolume,dscliPort,dscliOption_resumepprc,dscliWord_resumepprc
syn match dscliOption_resumepprc /\s\@1<=\%(-dev\|-quiet\|-remotedev\|-type\)\ze\%(\s\|$\)/ contained
hi def link dscliOption_resumepprc dscliOption
syn match dscliWord_resumepprc /\s\@1<=\%(gcp\|mmir\)\ze\%(\s\|$\)/ contained
hi def link dscliWord_resumepprc dscliWord
syn region dscliLine matchgroup=dscliCommand start=/^\s*resyncflash\ze\%(\s\|$\)/ end=/$/ oneline keepend contains=dscliBadOption,dscliNumber,dscliVolume,dscliPort,dscliOption_resyncflash
syn match dscliOption_resyncflash /\s\@1<=\%(-dev\|-nocp\|-persist\|-quiet\|-record\|-remotedev\|-seqnum\|-tgtinhibit\)\ze\%(\s\|$\)/ contained
hi def link dscliOption_resyncflash dscliOption
syn region dscliLine matchgroup=dscliCommand start=/^\s*reverseflash\ze\%(\s\|$\)/ end=/$/ oneline keepend contains=dscliBadOption,dscliNumber,dscliVolume,dscliPort,dscliOption_reverseflash
syn match dscliOption_reverseflash /\s\@1<=\%(-dev\|-fast\|-quiet\|-remotedev\|-seqnum\|-tgtpprc\)\ze\%(\s\|$\)/ contained
hi def link dscliOption_reverseflash dscliOption
syn region dscliLine matchgroup=dscliCommand start=/^\s*revertflash\ze\%(\s\|$\)/ end=/$/ oneline keepend contains=dscliBadOption,dscliNumber,dscliVolume,dscliPort,dscliOption_revertflash
syn match dscliOption_revertflash /\s\@1<=\%(-dev\|-quiet\|-remotedev\|-seqnum\)\ze\%(\s\|$\)/ contained
hi def link dscliOption_revertflash dscliOption
syn region dscliLine matchgroup=dscliCommand start=/^\s*rmflash\ze\%(\s\|$\)/ end=/$/ oneline keepend contains=dscliBadOption,dscliNumber,dscliVolume,dscliPort,dscliOption_rmflash
syn match dscliOption_rmflash /\s\@1<=\%(-dev\|-quiet\|-remotedev\|-seqnum\)\ze\%(\s\|$\)/ contained
hi def link dscliOption_rmflash dscliOption
syn region dscliLine matchgroup=dscliCommand start=/^\s*rmgmir\ze\%(\s\|$\)/ end=/$/ oneline keepend contains=dscliBadOption,dscliNumber,dscliVolume,dscliPort,dscliOption_rmgmir
syn match dscliOption_rmgmir /\s\@1<=\%(-dev\|-lss\|-quiet\|-remotedev\|-session\)\ze\%(\s\|$\)/ contained
hi def link dscliOption_rmgmir dscliOption
syn region dscliLine matchgroup=dscliCommand start=/^\s*rmpprc\ze\%(\s\|$\)/ end=/$/ oneline keepend contains=dscliBadOption,dscliNumber,dscliVolume,dscliPort,dscliOption_rmpprc,dscliWord_rmpprc
syn match dscliOption_rmpprc /\s\@1<=\%(-at\|-dev\|-quiet\|-remotedev\|-unconditional\)\ze\%(\s\|$\)/ contained
hi def link dscliOption_rmpprc dscliOption
syn match dscliWord_rmpprc /\s\@1<=\%(src\)\ze\%(\s\|$\)/ contained
hi def link dscliWord_rmpprc dscliWord
syn region dscliLine matchgroup=dscliCommand start=/^\s*rmpprcpath\ze\%(\s\|$\)/ end=/$/ oneline keepend contains=dscliBadOption,dscliNumber,dscliVolume,dscliPort,dscliOption_rmpprcpath
syn match dscliOption_rmpprcpath /\s\@1<=\%(-dev\|-force\|-quiet\|-remotedev\|-remotewwnn\)\ze\%(\s\|$\)/ contained
hi def link dscliOption_rmpprcpath dscliOption
syn region dscliLine matchgroup=dscliCommand start=/^\s*rmsession\ze\%(\s\|$\)/ end=/$/ oneline keepend contains=dscliBadOption,dscliNumber,dscliVolume,dscliPort,dscliOption_rmsession
syn match dscliOption_rmsession /\s\@1<=\%(-dev\|-lss\|-quiet\|-remotedev\)\ze\%(\s\|$\)/ contained
hi def link dscliOption_rmsession dscliOption
syn region dscliLine matchgroup=dscliCommand start=/^\s*showgmir\ze\%(\s\|$\)/ end=/$/ oneline keepend contains=dscliBadOption,dscliNumber,dscliVolume,dscliPort,dscliOption_showgmir
syn match dscliOption_showgmir /\s\@1<=\%(-dev\|-quiet\|-remotedev\)\ze\%(\s\|$\)/ contained
hi def link dscliOption_showgmir dscliOption
syn region dscliLine matchgroup=dscliCommand start=/^\s*unfreezeflash\ze\%(\s\|$\)/ end=/$/ oneline keepend contains=dscliBadOption,dscliNumber,dscliVolume,dscliPort,dscliOption_unfreezeflash
syn match dscliOption_unfreezeflash /\s\@1<=\%(-dev\|-quiet\|-remotedev\)\ze\%(\s\|$\)/ contained
hi def link dscliOption_unfreezeflash dscliOption
syn region dscliLine matchgroup=dscliCommand start=/^\s*unfreezepprc\ze\%(\s\|$\)/ end=/$/ oneline keepend contains=dscliBadOption,dscliNumber,dscliVolume,dscliPort,dscliOption_unfreezepprc
syn match dscliOption_unfreezepprc /\s\@1<=\%(-dev\|-quiet\|-remotedev\)\ze\%(\s\|$\)/ contained
hi def link dscliOption_unfreezepprc dscliOption
hi def link dscliCommand Statement
hi def link dscliOption Type
hi def link dscliWord Constant
hi def link dscliVolume Identifier
hi def link dscliPort Identifier
hi def link dscliNumber Number
hi def link dscliComment Comment
hi def link dscliPlan PreProc
hi def link dscliImage String
hi def link dscliCode Special
hi def link dscliBadCommand Error
hi def link dscliBadOption Error
let b:current_syntax = "dscli"
