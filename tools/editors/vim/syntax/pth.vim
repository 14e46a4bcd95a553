" Vim syntax file: scripts of pth_play. tools/editors/make writes this file from the definitions in crates/*/specs.
if exists("b:current_syntax")
  finish
endif

syn match pthWord1_0 /\%(arg\)\%( \|$\)\@=/ contained
syn match pthWord1_1 /\%(v\%(6[0-3]\|[1-5][0-9]\|[0-9]\)\)\%( \|$\)\@=/ contained
syn match pthWord1_2 /\%(0\|-\=[1-9][0-9]*\)\%( \|$\)\@=/ contained
syn cluster pthTail1 contains=pthWord1_0,pthWord1_1,pthWord1_2
syn match pthStatement1 /^\%(note\)\%( \|$\)\@=/ contained nextgroup=@pthTail1 skipwhite
syn match pthWord2_0 /\%(v\%(6[0-3]\|[1-5][0-9]\|[0-9]\)\)\%( \|$\)\@=/ contained nextgroup=@pthTail1 skipwhite
syn cluster pthTail2 contains=pthWord2_0
syn match pthStatement2 /^\%(set\)\%( \|$\)\@=/ contained nextgroup=@pthTail2 skipwhite
syn match pthAct1 /^\%(release\)\%( \|$\)\@=/ contained nextgroup=@pthTail1 skipwhite
syn match pthWord3_0 /\%(arg\)\%( \|$\)\@=/ contained nextgroup=@pthTail1 skipwhite
syn match pthWord3_1 /\%(v\%(6[0-3]\|[1-5][0-9]\|[0-9]\)\)\%( \|$\)\@=/ contained nextgroup=@pthTail1 skipwhite
syn match pthWord3_2 /\%(0\|-\=[1-9][0-9]*\)\%( \|$\)\@=/ contained nextgroup=@pthTail1 skipwhite
syn cluster pthTail3 contains=pthWord3_0,pthWord3_1,pthWord3_2
syn match pthAct3 /^\%(notify\|setkey\|put\)\%( \|$\)\@=/ contained nextgroup=@pthTail3 skipwhite
syn match pthWord4_0 /\%(err\)\%( \|$\)\@=/ contained
syn match pthWord4_1 /\%(a\%(1[0-5]\|[0-9]\)\|v\%(6[0-3]\|[1-5][0-9]\|[0-9]\)\)\%( \|$\)\@=/ contained
syn match pthWord4_2 /\%(0\|-\=[1-9][0-9]*\)\%( \|$\)\@=/ contained
syn cluster pthTail4 contains=pthWord4_0,pthWord4_1,pthWord4_2
syn match pthStatement4 /^\%(note\)\%( \|$\)\@=/ contained nextgroup=@pthTail4 skipwhite
syn match pthWord5_0 /\%(a\%(1[0-5]\|[0-9]\)\|v\%(6[0-3]\|[1-5][0-9]\|[0-9]\)\)\%( \|$\)\@=/ contained nextgroup=@pthTail4 skipwhite
syn cluster pthTail5 contains=pthWord5_0
syn match pthStatement5 /^\%(add\|set\)\%( \|$\)\@=/ contained nextgroup=@pthTail5 skipwhite
syn match pthWord6_0 /\%(0\|[1-9][0-9]*\)\%( \|$\)\@=/ contained
syn cluster pthTail6 contains=pthWord6_0
syn match pthJump6 /^\%(label\)\%( \|$\)\@=/ contained nextgroup=@pthTail6 skipwhite
syn match pthWord9_0 /\%(eq\|ge\|gt\|le\|lt\|ne\)\%( \|$\)\@=/ contained nextgroup=@pthTail4 skipwhite
syn cluster pthTail9 contains=pthWord9_0
syn match pthWord8_0 /\%(err\)\%( \|$\)\@=/ contained nextgroup=@pthTail9 skipwhite
syn match pthWord8_1 /\%(a\%(1[0-5]\|[0-9]\)\|v\%(6[0-3]\|[1-5][0-9]\|[0-9]\)\)\%( \|$\)\@=/ contained nextgroup=@pthTail9 skipwhite
syn match pthWord8_2 /\%(0\|-\=[1-9][0-9]*\)\%( \|$\)\@=/ contained nextgroup=@pthTail9 skipwhite
syn cluster pthTail8 contains=pthWord8_0,pthWord8_1,pthWord8_2
syn match pthWord7_0 /\%(0\|[1-9][0-9]*\)\%( \|$\)\@=/ contained nextgroup=@pthTail8 skipwhite
syn cluster pthTail7 contains=pthWord7_0
syn match pthJump7 /^\%(goto\)\%( \|$\)\@=/ contained nextgroup=@pthTail7 skipwhite
syn match pthCallLibrary /\%(^\%(a\%(1[0-5]\|[0-9]\)\|v\%(6[0-3]\|[1-5][0-9]\|[0-9]\)\) = \|^\)\@<=\%(kill\)\%( \|$\)\@=/ contained
syn match pthWord10_0 /\%(suspended\|running\|threads\|waiting\|ready\|dead\|new\)\%( \|$\)\@=/ contained
syn match pthWord10_1 /\%(favournew\|name\|prio\)\%( \|$\)\@=/ contained nextgroup=@pthTail4 skipwhite
syn cluster pthTail10 contains=pthWord10_0,pthWord10_1
syn match pthCallLibrary10 /\%(^\%(a\%(1[0-5]\|[0-9]\)\|v\%(6[0-3]\|[1-5][0-9]\|[0-9]\)\) = \|^\)\@<=\%(ctrl\)\%( \|$\)\@=/ contained nextgroup=@pthTail10 skipwhite
syn match pthCallAttributes /\%(^\%(a\%(1[0-5]\|[0-9]\)\|v\%(6[0-3]\|[1-5][0-9]\|[0-9]\)\) = \|^\)\@<=\%(attr_new\)\%( \|$\)\@=/ contained
syn match pthCallAttributes4 /\%(^\%(a\%(1[0-5]\|[0-9]\)\|v\%(6[0-3]\|[1-5][0-9]\|[0-9]\)\) = \|^\)\@<=\%(attr_destroy\|attr_init\|attr_of\)\%( \|$\)\@=/ contained nextgroup=@pthTail4 skipwhite
syn match pthWord12_0 /\%(dispatches\|joinable\|cancel\|bound\|state\|prio\)\%( \|$\)\@=/ contained nextgroup=@pthTail4 skipwhite
syn match pthWord13_0 /\%([a-z0-9_.]\+\)\%( \|$\)\@=/ contained
syn cluster pthTail13 contains=pthWord13_0
syn match pthWord12_1 /\%(name\)\%( \|$\)\@=/ contained nextgroup=@pthTail13 skipwhite
syn cluster pthTail12 contains=pthWord12_0,pthWord12_1
syn match pthWord11_0 /\%(err\)\%( \|$\)\@=/ contained nextgroup=@pthTail12 skipwhite
syn match pthWord11_1 /\%(a\%(1[0-5]\|[0-9]\)\|v\%(6[0-3]\|[1-5][0-9]\|[0-9]\)\)\%( \|$\)\@=/ contained nextgroup=@pthTail12 skipwhite
syn match pthWord11_2 /\%(0\|-\=[1-9][0-9]*\)\%( \|$\)\@=/ contained nextgroup=@pthTail12 skipwhite
syn cluster pthTail11 contains=pthWord11_0,pthWord11_1,pthWord11_2
syn match pthCallAttributes11 /\%(^\%(a\%(1[0-5]\|[0-9]\)\|v\%(6[0-3]\|[1-5][0-9]\|[0-9]\)\) = \|^\)\@<=\%(attr_set\)\%( \|$\)\@=/ contained nextgroup=@pthTail11 skipwhite
syn match pthWord15_0 /\%(dispatches\|joinable\|cancel\|bound\|state\|name\|prio\)\%( \|$\)\@=/ contained
syn cluster pthTail15 contains=pthWord15_0
syn match pthWord14_0 /\%(err\)\%( \|$\)\@=/ contained nextgroup=@pthTail15 skipwhite
syn match pthWord14_1 /\%(a\%(1[0-5]\|[0-9]\)\|v\%(6[0-3]\|[1-5][0-9]\|[0-9]\)\)\%( \|$\)\@=/ contained nextgroup=@pthTail15 skipwhite
syn match pthWord14_2 /\%(0\|-\=[1-9][0-9]*\)\%( \|$\)\@=/ contained nextgroup=@pthTail15 skipwhite
syn cluster pthTail14 contains=pthWord14_0,pthWord14_1,pthWord14_2
syn match pthCallAttributes14 /\%(^\%(a\%(1[0-5]\|[0-9]\)\|v\%(6[0-3]\|[1-5][0-9]\|[0-9]\)\) = \|^\)\@<=\%(attr_get\)\%( \|$\)\@=/ contained nextgroup=@pthTail14 skipwhite
syn match pthWord17_0 /\%(err\)\%( \|$\)\@=/ contained nextgroup=@pthTail4 skipwhite
syn match pthWord17_1 /\%(a\%(1[0-5]\|[0-9]\)\|v\%(6[0-3]\|[1-5][0-9]\|[0-9]\)\)\%( \|$\)\@=/ contained nextgroup=@pthTail4 skipwhite
syn match pthWord17_2 /\%(0\|-\=[1-9][0-9]*\)\%( \|$\)\@=/ contained nextgroup=@pthTail4 skipwhite
syn cluster pthTail17 contains=pthWord17_0,pthWord17_1,pthWord17_2
syn match pthWord16_0 /\%(err\)\%( \|$\)\@=/ contained nextgroup=@pthTail17 skipwhite
syn match pthWord16_1 /\%(a\%(1[0-5]\|[0-9]\)\|v\%(6[0-3]\|[1-5][0-9]\|[0-9]\)\)\%( \|$\)\@=/ contained nextgroup=@pthTail17 skipwhite
syn match pthWord16_2 /\%(0\|-\=[1-9][0-9]*\)\%( \|$\)\@=/ contained nextgroup=@pthTail17 skipwhite
syn cluster pthTail16 contains=pthWord16_0,pthWord16_1,pthWord16_2
syn match pthCallThreads16 /\%(^\%(a\%(1[0-5]\|[0-9]\)\|v\%(6[0-3]\|[1-5][0-9]\|[0-9]\)\) = \|^\)\@<=\%(spawn\|once\)\%( \|$\)\@=/ contained nextgroup=@pthTail16 skipwhite
syn match pthCallThreads /\%(^\%(a\%(1[0-5]\|[0-9]\)\|v\%(6[0-3]\|[1-5][0-9]\|[0-9]\)\) = \|^\)\@<=\%(self\)\%( \|$\)\@=/ contained
syn match pthCallThreads4 /\%(^\%(a\%(1[0-5]\|[0-9]\)\|v\%(6[0-3]\|[1-5][0-9]\|[0-9]\)\) = \|^\)\@<=\%(suspend\|cancel\|resume\|abort\|yield\|exit\|join\|wait\|nap\)\%( \|$\)\@=/ contained nextgroup=@pthTail4 skipwhite
syn match pthCallUtilities17 /\%(^\%(a\%(1[0-5]\|[0-9]\)\|v\%(6[0-3]\|[1-5][0-9]\|[0-9]\)\) = \|^\)\@<=\%(fdmode\)\%( \|$\)\@=/ contained nextgroup=@pthTail17 skipwhite
syn match pthCallUtilities4 /\%(^\%(a\%(1[0-5]\|[0-9]\)\|v\%(6[0-3]\|[1-5][0-9]\|[0-9]\)\) = \|^\)\@<=\%(timeout\)\%( \|$\)\@=/ contained nextgroup=@pthTail4 skipwhite
syn match pthCallCancellation /\%(^\%(a\%(1[0-5]\|[0-9]\)\|v\%(6[0-3]\|[1-5][0-9]\|[0-9]\)\) = \|^\)\@<=\%(cancel_point\)\%( \|$\)\@=/ contained
syn match pthCallCancellation4 /\%(^\%(a\%(1[0-5]\|[0-9]\)\|v\%(6[0-3]\|[1-5][0-9]\|[0-9]\)\) = \|^\)\@<=\%(cancel_state\)\%( \|$\)\@=/ contained nextgroup=@pthTail4 skipwhite
syn match pthWord18_0 /\%(rwx\|rw\|rx\|wx\|r\|w\|x\)\%( \|$\)\@=/ contained nextgroup=@pthTail4 skipwhite
syn cluster pthTail18 contains=pthWord18_0
syn match pthCallEvents18 /\%(^\%(a\%(1[0-5]\|[0-9]\)\|v\%(6[0-3]\|[1-5][0-9]\|[0-9]\)\) = \|^\)\@<=\%(ev_fd\)\%( \|$\)\@=/ contained nextgroup=@pthTail18 skipwhite
syn match pthWord21_0 /\%(-\|\%(6[0-3]\|[1-5][0-9]\|[0-9]\)\%(,\%(6[0-3]\|[1-5][0-9]\|[0-9]\)\)*\)\%( \|$\)\@=/ contained
syn cluster pthTail21 contains=pthWord21_0
syn match pthWord20_0 /\%(-\|\%(6[0-3]\|[1-5][0-9]\|[0-9]\)\%(,\%(6[0-3]\|[1-5][0-9]\|[0-9]\)\)*\)\%( \|$\)\@=/ contained nextgroup=@pthTail21 skipwhite
syn cluster pthTail20 contains=pthWord20_0
syn match pthWord19_0 /\%(-\|\%(6[0-3]\|[1-5][0-9]\|[0-9]\)\%(,\%(6[0-3]\|[1-5][0-9]\|[0-9]\)\)*\)\%( \|$\)\@=/ contained nextgroup=@pthTail20 skipwhite
syn cluster pthTail19 contains=pthWord19_0
syn match pthCallEvents19 /\%(^\%(a\%(1[0-5]\|[0-9]\)\|v\%(6[0-3]\|[1-5][0-9]\|[0-9]\)\) = \|^\)\@<=\%(ev_select\)\%( \|$\)\@=/ contained nextgroup=@pthTail19 skipwhite
syn match pthCallEvents4 /\%(^\%(a\%(1[0-5]\|[0-9]\)\|v\%(6[0-3]\|[1-5][0-9]\|[0-9]\)\) = \|^\)\@<=\%(ev_isolate\|ev_status\|ev_cond\|ev_kind\|ev_time\|ev_msg\)\%( \|$\)\@=/ contained nextgroup=@pthTail4 skipwhite
syn match pthWord22_0 /\%(waiting\|ready\|dead\|new\)\%( \|$\)\@=/ contained nextgroup=@pthTail4 skipwhite
syn cluster pthTail22 contains=pthWord22_0
syn match pthCallEvents22 /\%(^\%(a\%(1[0-5]\|[0-9]\)\|v\%(6[0-3]\|[1-5][0-9]\|[0-9]\)\) = \|^\)\@<=\%(ev_tid\)\%( \|$\)\@=/ contained nextgroup=@pthTail22 skipwhite
syn match pthCallEvents16 /\%(^\%(a\%(1[0-5]\|[0-9]\)\|v\%(6[0-3]\|[1-5][0-9]\|[0-9]\)\) = \|^\)\@<=\%(ev_func\)\%( \|$\)\@=/ contained nextgroup=@pthTail16 skipwhite
syn match pthWord24_0 /\%(ev_func\)\%( \|$\)\@=/ contained nextgroup=@pthTail16 skipwhite
syn match pthWord24_1 /\%(ev_tid\)\%( \|$\)\@=/ contained nextgroup=@pthTail22 skipwhite
syn match pthWord24_2 /\%(ev_cond\|ev_time\|ev_msg\)\%( \|$\)\@=/ contained nextgroup=@pthTail4 skipwhite
syn match pthWord24_3 /\%(ev_select\)\%( \|$\)\@=/ contained nextgroup=@pthTail19 skipwhite
syn match pthWord24_4 /\%(ev_fd\)\%( \|$\)\@=/ contained nextgroup=@pthTail18 skipwhite
syn cluster pthTail24 contains=pthWord24_0,pthWord24_1,pthWord24_2,pthWord24_3,pthWord24_4
syn match pthWord23_0 /\%(err\)\%( \|$\)\@=/ contained nextgroup=@pthTail24 skipwhite
syn match pthWord23_1 /\%(a\%(1[0-5]\|[0-9]\)\|v\%(6[0-3]\|[1-5][0-9]\|[0-9]\)\)\%( \|$\)\@=/ contained nextgroup=@pthTail24 skipwhite
syn match pthWord23_2 /\%(0\|-\=[1-9][0-9]*\)\%( \|$\)\@=/ contained nextgroup=@pthTail24 skipwhite
syn cluster pthTail23 contains=pthWord23_0,pthWord23_1,pthWord23_2
syn match pthCallEvents23 /\%(^\%(a\%(1[0-5]\|[0-9]\)\|v\%(6[0-3]\|[1-5][0-9]\|[0-9]\)\) = \|^\)\@<=\%(chain\)\%( \|$\)\@=/ contained nextgroup=@pthTail23 skipwhite
syn match pthCallEvents17 /\%(^\%(a\%(1[0-5]\|[0-9]\)\|v\%(6[0-3]\|[1-5][0-9]\|[0-9]\)\) = \|^\)\@<=\%(ev_concat\)\%( \|$\)\@=/ contained nextgroup=@pthTail17 skipwhite
syn match pthWord26_0 /\%(next_occurred\|prev_occurred\|next\|prev\)\%( \|$\)\@=/ contained
syn cluster pthTail26 contains=pthWord26_0
syn match pthWord25_0 /\%(err\)\%( \|$\)\@=/ contained nextgroup=@pthTail26 skipwhite
syn match pthWord25_1 /\%(a\%(1[0-5]\|[0-9]\)\|v\%(6[0-3]\|[1-5][0-9]\|[0-9]\)\)\%( \|$\)\@=/ contained nextgroup=@pthTail26 skipwhite
syn match pthWord25_2 /\%(0\|-\=[1-9][0-9]*\)\%( \|$\)\@=/ contained nextgroup=@pthTail26 skipwhite
syn cluster pthTail25 contains=pthWord25_0,pthWord25_1,pthWord25_2
syn match pthCallEvents25 /\%(^\%(a\%(1[0-5]\|[0-9]\)\|v\%(6[0-3]\|[1-5][0-9]\|[0-9]\)\) = \|^\)\@<=\%(ev_walk\)\%( \|$\)\@=/ contained nextgroup=@pthTail25 skipwhite
syn match pthWord28_0 /\%(this\|all\)\%( \|$\)\@=/ contained
syn cluster pthTail28 contains=pthWord28_0
syn match pthWord27_0 /\%(err\)\%( \|$\)\@=/ contained nextgroup=@pthTail28 skipwhite
syn match pthWord27_1 /\%(a\%(1[0-5]\|[0-9]\)\|v\%(6[0-3]\|[1-5][0-9]\|[0-9]\)\)\%( \|$\)\@=/ contained nextgroup=@pthTail28 skipwhite
syn match pthWord27_2 /\%(0\|-\=[1-9][0-9]*\)\%( \|$\)\@=/ contained nextgroup=@pthTail28 skipwhite
syn cluster pthTail27 contains=pthWord27_0,pthWord27_1,pthWord27_2
syn match pthCallEvents27 /\%(^\%(a\%(1[0-5]\|[0-9]\)\|v\%(6[0-3]\|[1-5][0-9]\|[0-9]\)\) = \|^\)\@<=\%(ev_free\)\%( \|$\)\@=/ contained nextgroup=@pthTail27 skipwhite
syn match pthWord29_0 /\%(-\)\%( \|$\)\@=/ contained
syn match pthWord29_1 /\%(err\)\%( \|$\)\@=/ contained
syn match pthWord29_2 /\%(a\%(1[0-5]\|[0-9]\)\|v\%(6[0-3]\|[1-5][0-9]\|[0-9]\)\)\%( \|$\)\@=/ contained
syn match pthWord29_3 /\%(0\|-\=[1-9][0-9]*\)\%( \|$\)\@=/ contained
syn cluster pthTail29 contains=pthWord29_0,pthWord29_1,pthWord29_2,pthWord29_3
syn match pthCallKeys29 /\%(^\%(a\%(1[0-5]\|[0-9]\)\|v\%(6[0-3]\|[1-5][0-9]\|[0-9]\)\) = \|^\)\@<=\%(key_create\)\%( \|$\)\@=/ contained nextgroup=@pthTail29 skipwhite
syn match pthCallKeys4 /\%(^\%(a\%(1[0-5]\|[0-9]\)\|v\%(6[0-3]\|[1-5][0-9]\|[0-9]\)\) = \|^\)\@<=\%(key_delete\|key_get\)\%( \|$\)\@=/ contained nextgroup=@pthTail4 skipwhite
syn match pthCallKeys17 /\%(^\%(a\%(1[0-5]\|[0-9]\)\|v\%(6[0-3]\|[1-5][0-9]\|[0-9]\)\) = \|^\)\@<=\%(key_set\)\%( \|$\)\@=/ contained nextgroup=@pthTail17 skipwhite
syn match pthWord30_0 /\%([a-z0-9_.]\+\)\%( \|$\)\@=/ contained
syn match pthWord30_1 /\%(-\)\%( \|$\)\@=/ contained
syn cluster pthTail30 contains=pthWord30_0,pthWord30_1
syn match pthCallPorts30 /\%(^\%(a\%(1[0-5]\|[0-9]\)\|v\%(6[0-3]\|[1-5][0-9]\|[0-9]\)\) = \|^\)\@<=\%(port_create\)\%( \|$\)\@=/ contained nextgroup=@pthTail30 skipwhite
syn match pthCallPorts13 /\%(^\%(a\%(1[0-5]\|[0-9]\)\|v\%(6[0-3]\|[1-5][0-9]\|[0-9]\)\) = \|^\)\@<=\%(port_find\)\%( \|$\)\@=/ contained nextgroup=@pthTail13 skipwhite
syn match pthCallPorts4 /\%(^\%(a\%(1[0-5]\|[0-9]\)\|v\%(6[0-3]\|[1-5][0-9]\|[0-9]\)\) = \|^\)\@<=\%(port_destroy\|port_pending\|port_get\|reply\)\%( \|$\)\@=/ contained nextgroup=@pthTail4 skipwhite
syn match pthCallPorts16 /\%(^\%(a\%(1[0-5]\|[0-9]\)\|v\%(6[0-3]\|[1-5][0-9]\|[0-9]\)\) = \|^\)\@<=\%(port_put\)\%( \|$\)\@=/ contained nextgroup=@pthTail16 skipwhite
syn match pthCallCleanups17 /\%(^\%(a\%(1[0-5]\|[0-9]\)\|v\%(6[0-3]\|[1-5][0-9]\|[0-9]\)\) = \|^\)\@<=\%(cleanup_push\)\%( \|$\)\@=/ contained nextgroup=@pthTail17 skipwhite
syn match pthCallCleanups4 /\%(^\%(a\%(1[0-5]\|[0-9]\)\|v\%(6[0-3]\|[1-5][0-9]\|[0-9]\)\) = \|^\)\@<=\%(cleanup_pop\)\%( \|$\)\@=/ contained nextgroup=@pthTail4 skipwhite
syn match pthCallMutexes4 /\%(^\%(a\%(1[0-5]\|[0-9]\)\|v\%(6[0-3]\|[1-5][0-9]\|[0-9]\)\) = \|^\)\@<=\%(mutex_release\|mutex_init\)\%( \|$\)\@=/ contained nextgroup=@pthTail4 skipwhite
syn match pthCallMutexes16 /\%(^\%(a\%(1[0-5]\|[0-9]\)\|v\%(6[0-3]\|[1-5][0-9]\|[0-9]\)\) = \|^\)\@<=\%(mutex_acquire\)\%( \|$\)\@=/ contained nextgroup=@pthTail16 skipwhite
syn match pthCallRwlocks4 /\%(^\%(a\%(1[0-5]\|[0-9]\)\|v\%(6[0-3]\|[1-5][0-9]\|[0-9]\)\) = \|^\)\@<=\%(rw_release\|rw_init\)\%( \|$\)\@=/ contained nextgroup=@pthTail4 skipwhite
syn match pthWord32_0 /\%(rd\|rw\)\%( \|$\)\@=/ contained nextgroup=@pthTail17 skipwhite
syn cluster pthTail32 contains=pthWord32_0
syn match pthWord31_0 /\%(err\)\%( \|$\)\@=/ contained nextgroup=@pthTail32 skipwhite
syn match pthWord31_1 /\%(a\%(1[0-5]\|[0-9]\)\|v\%(6[0-3]\|[1-5][0-9]\|[0-9]\)\)\%( \|$\)\@=/ contained nextgroup=@pthTail32 skipwhite
syn match pthWord31_2 /\%(0\|-\=[1-9][0-9]*\)\%( \|$\)\@=/ contained nextgroup=@pthTail32 skipwhite
syn cluster pthTail31 contains=pthWord31_0,pthWord31_1,pthWord31_2
syn match pthCallRwlocks31 /\%(^\%(a\%(1[0-5]\|[0-9]\)\|v\%(6[0-3]\|[1-5][0-9]\|[0-9]\)\) = \|^\)\@<=\%(rw_acquire\)\%( \|$\)\@=/ contained nextgroup=@pthTail31 skipwhite
syn match pthCallConditions4 /\%(^\%(a\%(1[0-5]\|[0-9]\)\|v\%(6[0-3]\|[1-5][0-9]\|[0-9]\)\) = \|^\)\@<=\%(cond_init\)\%( \|$\)\@=/ contained nextgroup=@pthTail4 skipwhite
syn match pthCallConditions16 /\%(^\%(a\%(1[0-5]\|[0-9]\)\|v\%(6[0-3]\|[1-5][0-9]\|[0-9]\)\) = \|^\)\@<=\%(cond_await\)\%( \|$\)\@=/ contained nextgroup=@pthTail16 skipwhite
syn match pthCallConditions17 /\%(^\%(a\%(1[0-5]\|[0-9]\)\|v\%(6[0-3]\|[1-5][0-9]\|[0-9]\)\) = \|^\)\@<=\%(cond_notify\)\%( \|$\)\@=/ contained nextgroup=@pthTail17 skipwhite
syn match pthCallBarriers17 /\%(^\%(a\%(1[0-5]\|[0-9]\)\|v\%(6[0-3]\|[1-5][0-9]\|[0-9]\)\) = \|^\)\@<=\%(barrier_init\)\%( \|$\)\@=/ contained nextgroup=@pthTail17 skipwhite
syn match pthCallBarriers4 /\%(^\%(a\%(1[0-5]\|[0-9]\)\|v\%(6[0-3]\|[1-5][0-9]\|[0-9]\)\) = \|^\)\@<=\%(barrier_reach\)\%( \|$\)\@=/ contained nextgroup=@pthTail4 skipwhite
syn match pthCallIo4 /\%(^\%(a\%(1[0-5]\|[0-9]\)\|v\%(6[0-3]\|[1-5][0-9]\|[0-9]\)\) = \|^\)\@<=\%(connect\|accept\|usleep\|close\|sleep\)\%( \|$\)\@=/ contained nextgroup=@pthTail4 skipwhite
syn match pthCallIo17 /\%(^\%(a\%(1[0-5]\|[0-9]\)\|v\%(6[0-3]\|[1-5][0-9]\|[0-9]\)\) = \|^\)\@<=\%(connect_ev\|accept_ev\|read\)\%( \|$\)\@=/ contained nextgroup=@pthTail17 skipwhite
syn match pthCallIo16 /\%(^\%(a\%(1[0-5]\|[0-9]\)\|v\%(6[0-3]\|[1-5][0-9]\|[0-9]\)\) = \|^\)\@<=\%(read_ev\)\%( \|$\)\@=/ contained nextgroup=@pthTail16 skipwhite
syn match pthWord34_0 /\%(hex:\%([0-9a-f][0-9a-f]\)*\)\%( \|$\)\@=/ contained
syn match pthWord34_1 /\%(buf\)\%( \|$\)\@=/ contained
syn cluster pthTail34 contains=pthWord34_0,pthWord34_1
syn match pthWord33_0 /\%(err\)\%( \|$\)\@=/ contained nextgroup=@pthTail34 skipwhite
syn match pthWord33_1 /\%(a\%(1[0-5]\|[0-9]\)\|v\%(6[0-3]\|[1-5][0-9]\|[0-9]\)\)\%( \|$\)\@=/ contained nextgroup=@pthTail34 skipwhite
syn match pthWord33_2 /\%(0\|-\=[1-9][0-9]*\)\%( \|$\)\@=/ contained nextgroup=@pthTail34 skipwhite
syn cluster pthTail33 contains=pthWord33_0,pthWord33_1,pthWord33_2
syn match pthCallIo33 /\%(^\%(a\%(1[0-5]\|[0-9]\)\|v\%(6[0-3]\|[1-5][0-9]\|[0-9]\)\) = \|^\)\@<=\%(write\)\%( \|$\)\@=/ contained nextgroup=@pthTail33 skipwhite
syn match pthWord36_0 /\%(hex:\%([0-9a-f][0-9a-f]\)*\)\%( \|$\)\@=/ contained nextgroup=@pthTail4 skipwhite
syn match pthWord36_1 /\%(buf\)\%( \|$\)\@=/ contained nextgroup=@pthTail4 skipwhite
syn cluster pthTail36 contains=pthWord36_0,pthWord36_1
syn match pthWord35_0 /\%(err\)\%( \|$\)\@=/ contained nextgroup=@pthTail36 skipwhite
syn match pthWord35_1 /\%(a\%(1[0-5]\|[0-9]\)\|v\%(6[0-3]\|[1-5][0-9]\|[0-9]\)\)\%( \|$\)\@=/ contained nextgroup=@pthTail36 skipwhite
syn match pthWord35_2 /\%(0\|-\=[1-9][0-9]*\)\%( \|$\)\@=/ contained nextgroup=@pthTail36 skipwhite
syn cluster pthTail35 contains=pthWord35_0,pthWord35_1,pthWord35_2
syn match pthCallIo35 /\%(^\%(a\%(1[0-5]\|[0-9]\)\|v\%(6[0-3]\|[1-5][0-9]\|[0-9]\)\) = \|^\)\@<=\%(write_ev\)\%( \|$\)\@=/ contained nextgroup=@pthTail35 skipwhite
syn match pthWord39_0 /\%(-\|\%(6[0-3]\|[1-5][0-9]\|[0-9]\)\%(,\%(6[0-3]\|[1-5][0-9]\|[0-9]\)\)*\)\%( \|$\)\@=/ contained nextgroup=@pthTail4 skipwhite
syn cluster pthTail39 contains=pthWord39_0
syn match pthWord38_0 /\%(-\|\%(6[0-3]\|[1-5][0-9]\|[0-9]\)\%(,\%(6[0-3]\|[1-5][0-9]\|[0-9]\)\)*\)\%( \|$\)\@=/ contained nextgroup=@pthTail39 skipwhite
syn cluster pthTail38 contains=pthWord38_0
syn match pthWord37_0 /\%(-\|\%(6[0-3]\|[1-5][0-9]\|[0-9]\)\%(,\%(6[0-3]\|[1-5][0-9]\|[0-9]\)\)*\)\%( \|$\)\@=/ contained nextgroup=@pthTail38 skipwhite
syn cluster pthTail37 contains=pthWord37_0
syn match pthCallIo37 /\%(^\%(a\%(1[0-5]\|[0-9]\)\|v\%(6[0-3]\|[1-5][0-9]\|[0-9]\)\) = \|^\)\@<=\%(select\)\%( \|$\)\@=/ contained nextgroup=@pthTail37 skipwhite
syn match pthWord42_0 /\%(-\|\%(6[0-3]\|[1-5][0-9]\|[0-9]\)\%(,\%(6[0-3]\|[1-5][0-9]\|[0-9]\)\)*\)\%( \|$\)\@=/ contained nextgroup=@pthTail17 skipwhite
syn cluster pthTail42 contains=pthWord42_0
syn match pthWord41_0 /\%(-\|\%(6[0-3]\|[1-5][0-9]\|[0-9]\)\%(,\%(6[0-3]\|[1-5][0-9]\|[0-9]\)\)*\)\%( \|$\)\@=/ contained nextgroup=@pthTail42 skipwhite
syn cluster pthTail41 contains=pthWord41_0
syn match pthWord40_0 /\%(-\|\%(6[0-3]\|[1-5][0-9]\|[0-9]\)\%(,\%(6[0-3]\|[1-5][0-9]\|[0-9]\)\)*\)\%( \|$\)\@=/ contained nextgroup=@pthTail41 skipwhite
syn cluster pthTail40 contains=pthWord40_0
syn match pthCallIo40 /\%(^\%(a\%(1[0-5]\|[0-9]\)\|v\%(6[0-3]\|[1-5][0-9]\|[0-9]\)\) = \|^\)\@<=\%(select_ev\)\%( \|$\)\@=/ contained nextgroup=@pthTail40 skipwhite
syn match pthKernel6 /^\%(clock\)\%( \|$\)\@=/ contained nextgroup=@pthTail6 skipwhite
syn match pthWord43_0 /\%(6[0-3]\|[1-5][0-9]\|[0-9]\)\%( \|$\)\@=/ contained
syn cluster pthTail43 contains=pthWord43_0
syn match pthKernel43 /^\%(open\)\%( \|$\)\@=/ contained nextgroup=@pthTail43 skipwhite
syn match pthWord46_0 /\%(refuse\|eof\|err\|exc\|up\)\%( \|$\)\@=/ contained
syn match pthWord46_1 /\%(conn\)\%( \|$\)\@=/ contained nextgroup=@pthTail43 skipwhite
syn match pthWord46_2 /\%(room\)\%( \|$\)\@=/ contained nextgroup=@pthTail6 skipwhite
syn match pthWord47_0 /\%(\%([0-9a-f][0-9a-f]\)\+\)\%( \|$\)\@=/ contained
syn cluster pthTail47 contains=pthWord47_0
syn match pthWord46_3 /\%(in\)\%( \|$\)\@=/ contained nextgroup=@pthTail47 skipwhite
syn cluster pthTail46 contains=pthWord46_0,pthWord46_1,pthWord46_2,pthWord46_3
syn match pthWord45_0 /\%(6[0-3]\|[1-5][0-9]\|[0-9]\)\%( \|$\)\@=/ contained nextgroup=@pthTail46 skipwhite
syn cluster pthTail45 contains=pthWord45_0
syn match pthWord44_0 /\%(0\|[1-9][0-9]*\)\%( \|$\)\@=/ contained nextgroup=@pthTail45 skipwhite
syn cluster pthTail44 contains=pthWord44_0
syn match pthKernel44 /^\%(at\)\%( \|$\)\@=/ contained nextgroup=@pthTail44 skipwhite
syn match pthRegister /^\%(a\%(1[0-5]\|[0-9]\)\|v\%(6[0-3]\|[1-5][0-9]\|[0-9]\)\)\%( = \)\@=/ contained
syn match pthEquals /\%(^\%(a\%(1[0-5]\|[0-9]\)\|v\%(6[0-3]\|[1-5][0-9]\|[0-9]\)\) \)\@<==\%( \)\@=/ contained
syn match pthWord48_0 /\%(1\|2\)\%( \|$\)\@=/ contained
syn cluster pthTail48 contains=pthWord48_0
syn match pthHeading48 /^\%(pth\)\%( \|$\)\@=/ nextgroup=@pthTail48 skipwhite
syn match pthWord49_0 /\%(10\|11\|12\|13\|14\|15\|16\|17\|18\|19\|20\|5\|6\|7\|8\|9\)\%( \|$\)\@=/ contained
syn cluster pthTail49 contains=pthWord49_0
syn match pthHeading49 /^\%(range\)\%( \|$\)\@=/ nextgroup=@pthTail49 skipwhite
syn match pthWord52_0 /\%(eq\|ge\|gt\|le\|lt\|ne\)\%( \|$\)\@=/ contained nextgroup=@pthTail1 skipwhite
syn cluster pthTail52 contains=pthWord52_0
syn match pthWord51_0 /\%(arg\)\%( \|$\)\@=/ contained nextgroup=@pthTail52 skipwhite
syn match pthWord51_1 /\%(v\%(6[0-3]\|[1-5][0-9]\|[0-9]\)\)\%( \|$\)\@=/ contained nextgroup=@pthTail52 skipwhite
syn match pthWord51_2 /\%(0\|-\=[1-9][0-9]*\)\%( \|$\)\@=/ contained nextgroup=@pthTail52 skipwhite
syn cluster pthTail51 contains=pthWord51_0,pthWord51_1,pthWord51_2
syn match pthWord50_0 /\%(0\|[1-9][0-9]*\)\%( \|$\)\@=/ contained nextgroup=@pthTail51 skipwhite
syn cluster pthTail50 contains=pthWord50_0
syn match pthSection50 /^\%(check\)\%( \|$\)\@=/ nextgroup=@pthTail50 skipwhite
syn match pthSectionNumber /\%(^\%(handler\|thread\) \)\@<=\%(0\|[1-9][0-9]*\)\%( \|$\)\@=/ contained
syn match pthComment /^#.*$/
syn region pthHandlerSection matchgroup=pthSection start=/^handler\%( \|$\)\@=/ end=/^end$/ contains=pthComment,pthSectionNumber,pthStatement1,pthStatement2,pthAct1,pthAct3 fold
syn region pthThreadSection matchgroup=pthSection start=/^thread\%( \|$\)\@=/ end=/^end$/ contains=pthComment,pthSectionNumber,pthStatement4,pthStatement5,pthJump6,pthJump7,pthCallLibrary,pthCallLibrary10,pthCallAttributes,pthCallAttributes4,pthCallAttributes11,pthCallAttributes14,pthCallThreads16,pthCallThreads,pthCallThreads4,pthCallUtilities17,pthCallUtilities4,pthCallCancellation,pthCallCancellation4,pthCallEvents18,pthCallEvents19,pthCallEvents4,pthCallEvents22,pthCallEvents16,pthCallEvents23,pthCallEvents17,pthCallEvents25,pthCallEvents27,pthCallKeys29,pthCallKeys4,pthCallKeys17,pthCallPorts30,pthCallPorts13,pthCallPorts4,pthCallPorts16,pthCallCleanups17,pthCallCleanups4,pthCallMutexes4,pthCallMutexes16,pthCallRwlocks4,pthCallRwlocks31,pthCallConditions4,pthCallConditions16,pthCallConditions17,pthCallBarriers17,pthCallBarriers4,pthCallIo4,pthCallIo17,pthCallIo16,pthCallIo33,pthCallIo35,pthCallIo37,pthCallIo40,pthRegister,pthEquals fold
syn region pthKernelSection matchgroup=pthSection start=/^kernel\%( \|$\)\@=/ end=/\%$/ contains=pthComment,pthSectionNumber,pthKernel6,pthKernel43,pthKernel44 fold
syn sync fromstart

hi def link pthComment Comment
hi def link pthSpecial Special
hi def link pthWord1_0 pthSpecial
hi def link pthRegister Identifier
hi def link pthWord1_1 pthRegister
hi def link pthNumber Number
hi def link pthWord1_2 pthNumber
hi def link pthStatement Statement
hi def link pthStatement1 pthStatement
hi def link pthWord2_0 pthRegister
hi def link pthStatement2 pthStatement
hi def link pthAct Function
hi def link pthAct1 pthAct
hi def link pthWord3_0 pthSpecial
hi def link pthWord3_1 pthRegister
hi def link pthWord3_2 pthNumber
hi def link pthAct3 pthAct
hi def link pthWord4_0 pthSpecial
hi def link pthWord4_1 pthRegister
hi def link pthWord4_2 pthNumber
hi def link pthStatement4 pthStatement
hi def link pthWord5_0 pthRegister
hi def link pthStatement5 pthStatement
hi def link pthWord6_0 pthNumber
hi def link pthJump Label
hi def link pthJump6 pthJump
hi def link pthWord7_0 pthNumber
hi def link pthWord8_0 pthSpecial
hi def link pthRelation Operator
hi def link pthWord9_0 pthRelation
hi def link pthWord8_1 pthRegister
hi def link pthWord8_2 pthNumber
hi def link pthJump7 pthJump
hi def link pthCallLibrary Function
hi def link pthOption Constant
hi def link pthWord10_0 pthOption
hi def link pthWord10_1 pthOption
hi def link pthCallLibrary10 pthCallLibrary
hi def link pthCallAttributes Function
hi def link pthCallAttributes4 pthCallAttributes
hi def link pthWord11_0 pthSpecial
hi def link pthWord12_0 pthOption
hi def link pthWord12_1 pthOption
hi def link pthName String
hi def link pthWord13_0 pthName
hi def link pthWord11_1 pthRegister
hi def link pthWord11_2 pthNumber
hi def link pthCallAttributes11 pthCallAttributes
hi def link pthWord14_0 pthSpecial
hi def link pthWord15_0 pthOption
hi def link pthWord14_1 pthRegister
hi def link pthWord14_2 pthNumber
hi def link pthCallAttributes14 pthCallAttributes
hi def link pthWord16_0 pthSpecial
hi def link pthWord17_0 pthSpecial
hi def link pthWord17_1 pthRegister
hi def link pthWord17_2 pthNumber
hi def link pthWord16_1 pthRegister
hi def link pthWord16_2 pthNumber
hi def link pthCallThreads Function
hi def link pthCallThreads16 pthCallThreads
hi def link pthCallThreads4 pthCallThreads
hi def link pthCallUtilities Function
hi def link pthCallUtilities17 pthCallUtilities
hi def link pthCallUtilities4 pthCallUtilities
hi def link pthCallCancellation Function
hi def link pthCallCancellation4 pthCallCancellation
hi def link pthWord18_0 pthOption
hi def link pthCallEvents Function
hi def link pthCallEvents18 pthCallEvents
hi def link pthSet Number
hi def link pthWord19_0 pthSet
hi def link pthWord20_0 pthSet
hi def link pthWord21_0 pthSet
hi def link pthCallEvents19 pthCallEvents
hi def link pthCallEvents4 pthCallEvents
hi def link pthWord22_0 pthOption
hi def link pthCallEvents22 pthCallEvents
hi def link pthCallEvents16 pthCallEvents
hi def link pthWord23_0 pthSpecial
hi def link pthWord24_0 pthCallEvents
hi def link pthWord24_1 pthCallEvents
hi def link pthWord24_2 pthCallEvents
hi def link pthWord24_3 pthCallEvents
hi def link pthWord24_4 pthCallEvents
hi def link pthWord23_1 pthRegister
hi def link pthWord23_2 pthNumber
hi def link pthCallEvents23 pthCallEvents
hi def link pthCallEvents17 pthCallEvents
hi def link pthWord25_0 pthSpecial
hi def link pthWord26_0 pthOption
hi def link pthWord25_1 pthRegister
hi def link pthWord25_2 pthNumber
hi def link pthCallEvents25 pthCallEvents
hi def link pthWord27_0 pthSpecial
hi def link pthWord28_0 pthOption
hi def link pthWord27_1 pthRegister
hi def link pthWord27_2 pthNumber
hi def link pthCallEvents27 pthCallEvents
hi def link pthNone Special
hi def link pthWord29_0 pthNone
hi def link pthWord29_1 pthSpecial
hi def link pthWord29_2 pthRegister
hi def link pthWord29_3 pthNumber
hi def link pthCallKeys Function
hi def link pthCallKeys29 pthCallKeys
hi def link pthCallKeys4 pthCallKeys
hi def link pthCallKeys17 pthCallKeys
hi def link pthWord30_0 pthName
hi def link pthWord30_1 pthNone
hi def link pthCallPorts Function
hi def link pthCallPorts30 pthCallPorts
hi def link pthCallPorts13 pthCallPorts
hi def link pthCallPorts4 pthCallPorts
hi def link pthCallPorts16 pthCallPorts
hi def link pthCallCleanups Function
hi def link pthCallCleanups17 pthCallCleanups
hi def link pthCallCleanups4 pthCallCleanups
hi def link pthCallMutexes Function
hi def link pthCallMutexes4 pthCallMutexes
hi def link pthCallMutexes16 pthCallMutexes
hi def link pthCallRwlocks Function
hi def link pthCallRwlocks4 pthCallRwlocks
hi def link pthWord31_0 pthSpecial
hi def link pthWord32_0 pthOption
hi def link pthWord31_1 pthRegister
hi def link pthWord31_2 pthNumber
hi def link pthCallRwlocks31 pthCallRwlocks
hi def link pthCallConditions Function
hi def link pthCallConditions4 pthCallConditions
hi def link pthCallConditions16 pthCallConditions
hi def link pthCallConditions17 pthCallConditions
hi def link pthCallBarriers Function
hi def link pthCallBarriers17 pthCallBarriers
hi def link pthCallBarriers4 pthCallBarriers
hi def link pthCallIo Function
hi def link pthCallIo4 pthCallIo
hi def link pthCallIo17 pthCallIo
hi def link pthCallIo16 pthCallIo
hi def link pthWord33_0 pthSpecial
hi def link pthHex String
hi def link pthWord34_0 pthHex
hi def link pthWord34_1 pthSpecial
hi def link pthWord33_1 pthRegister
hi def link pthWord33_2 pthNumber
hi def link pthCallIo33 pthCallIo
hi def link pthWord35_0 pthSpecial
hi def link pthWord36_0 pthHex
hi def link pthWord36_1 pthSpecial
hi def link pthWord35_1 pthRegister
hi def link pthWord35_2 pthNumber
hi def link pthCallIo35 pthCallIo
hi def link pthWord37_0 pthSet
hi def link pthWord38_0 pthSet
hi def link pthWord39_0 pthSet
hi def link pthCallIo37 pthCallIo
hi def link pthWord40_0 pthSet
hi def link pthWord41_0 pthSet
hi def link pthWord42_0 pthSet
hi def link pthCallIo40 pthCallIo
hi def link pthKernel Keyword
hi def link pthKernel6 pthKernel
hi def link pthWord43_0 pthNumber
hi def link pthKernel43 pthKernel
hi def link pthWord44_0 pthNumber
hi def link pthWord45_0 pthNumber
hi def link pthArrival Type
hi def link pthWord46_0 pthArrival
hi def link pthWord46_1 pthArrival
hi def link pthWord46_2 pthArrival
hi def link pthWord46_3 pthArrival
hi def link pthWord47_0 pthHex
hi def link pthKernel44 pthKernel
hi def link pthEquals Operator
hi def link pthWord48_0 pthNumber
hi def link pthHeading PreProc
hi def link pthHeading48 pthHeading
hi def link pthWord49_0 pthNumber
hi def link pthHeading49 pthHeading
hi def link pthWord50_0 pthNumber
hi def link pthWord51_0 pthSpecial
hi def link pthWord52_0 pthRelation
hi def link pthWord51_1 pthRegister
hi def link pthWord51_2 pthNumber
hi def link pthSection Structure
hi def link pthSection50 pthSection
hi def link pthSectionNumber pthNumber

let b:current_syntax = "pth"
