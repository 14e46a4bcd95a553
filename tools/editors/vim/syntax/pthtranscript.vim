" Vim syntax file: transcripts of pth_play. tools/editors/make writes this file from the definitions in crates/*/specs.
if exists("b:current_syntax")
  finish
endif

syn match pthTranscriptWord10_0 /\%(0\|[1-9][0-9]*\)\%( \|$\)\@=/ contained
syn cluster pthTranscriptTail10 contains=pthTranscriptWord10_0
syn match pthTranscriptWord9_0 /\%(allowed\)\%( \|$\)\@=/ contained nextgroup=@pthTranscriptTail10 skipwhite
syn cluster pthTranscriptTail9 contains=pthTranscriptWord9_0
syn match pthTranscriptWord8_0 /\%(0\|[1-9][0-9]*\)\%( \|$\)\@=/ contained nextgroup=@pthTranscriptTail9 skipwhite
syn cluster pthTranscriptTail8 contains=pthTranscriptWord8_0
syn match pthTranscriptWord7_0 /\%(waited\)\%( \|$\)\@=/ contained nextgroup=@pthTranscriptTail8 skipwhite
syn cluster pthTranscriptTail7 contains=pthTranscriptWord7_0
syn match pthTranscriptWord6_0 /\%(0\|-\=[1-9][0-9]*\)\%( \|$\)\@=/ contained nextgroup=@pthTranscriptTail7 skipwhite
syn cluster pthTranscriptTail6 contains=pthTranscriptWord6_0
syn match pthTranscriptWord5_0 /\%(rank\)\%( \|$\)\@=/ contained nextgroup=@pthTranscriptTail6 skipwhite
syn cluster pthTranscriptTail5 contains=pthTranscriptWord5_0
syn match pthTranscriptWord4_0 /\%(t[1-9][0-9]*\)\%( \|$\)\@=/ contained nextgroup=@pthTranscriptTail5 skipwhite
syn cluster pthTranscriptTail4 contains=pthTranscriptWord4_0
syn match pthTranscriptWord3_0 /\%(0\|[1-9][0-9]*\)\%( \|$\)\@=/ contained nextgroup=@pthTranscriptTail4 skipwhite
syn cluster pthTranscriptTail3 contains=pthTranscriptWord3_0
syn match pthTranscriptWord2_0 /\%(at\)\%( \|$\)\@=/ contained nextgroup=@pthTranscriptTail3 skipwhite
syn cluster pthTranscriptTail2 contains=pthTranscriptWord2_0
syn match pthTranscriptWord1_0 /\%(0\|[1-9][0-9]*\)\%( \|$\)\@=/ contained nextgroup=@pthTranscriptTail2 skipwhite
syn cluster pthTranscriptTail1 contains=pthTranscriptWord1_0
syn match pthTranscriptTurn1 /^\%(turn\)\%( \|$\)\@=/ nextgroup=@pthTranscriptTail1 skipwhite
syn match pthTranscriptWord12_0 /\%(0\|-\=[1-9][0-9]*\)\%( \|$\)\@=/ contained
syn cluster pthTranscriptTail12 contains=pthTranscriptWord12_0
syn match pthTranscriptWord11_0 /\%(ends\)\%( \|$\)\@=/ contained nextgroup=@pthTranscriptTail12 skipwhite
syn match pthTranscriptWord13_0 /\%(rwlock\)\%( \|$\)\@=/ contained nextgroup=@pthTranscriptTail10 skipwhite
syn match pthTranscriptWord13_1 /\%(mutex\)\%( \|$\)\@=/ contained nextgroup=@pthTranscriptTail10 skipwhite
syn cluster pthTranscriptTail13 contains=pthTranscriptWord13_0,pthTranscriptWord13_1
syn match pthTranscriptWord11_1 /\%(gives\)\%( \|$\)\@=/ contained nextgroup=@pthTranscriptTail13 skipwhite
syn match pthTranscriptWord18_0 /\%([a-z0-9_.]\+\)\%( \|$\)\@=/ contained
syn match pthTranscriptWord20_0 /\%(value\)\%( \|$\)\@=/ contained nextgroup=@pthTranscriptTail12 skipwhite
syn cluster pthTranscriptTail20 contains=pthTranscriptWord20_0
syn match pthTranscriptWord19_0 /\%(0\|[1-9][0-9]*\)\%( \|$\)\@=/ contained nextgroup=@pthTranscriptTail20 skipwhite
syn cluster pthTranscriptTail19 contains=pthTranscriptWord19_0
syn match pthTranscriptWord18_1 /\%(msg\)\%( \|$\)\@=/ contained nextgroup=@pthTranscriptTail19 skipwhite
syn match pthTranscriptWord18_2 /\%(hex:\%([0-9a-f][0-9a-f]\)*\)\%( \|$\)\@=/ contained
syn match pthTranscriptWord24_0 /\%(-\|\%(6[0-3]\|[1-5][0-9]\|[0-9]\)\%(,\%(6[0-3]\|[1-5][0-9]\|[0-9]\)\)*\)\%( \|$\)\@=/ contained
syn cluster pthTranscriptTail24 contains=pthTranscriptWord24_0
syn match pthTranscriptWord23_0 /\%(-\|\%(6[0-3]\|[1-5][0-9]\|[0-9]\)\%(,\%(6[0-3]\|[1-5][0-9]\|[0-9]\)\)*\)\%( \|$\)\@=/ contained nextgroup=@pthTranscriptTail24 skipwhite
syn cluster pthTranscriptTail23 contains=pthTranscriptWord23_0
syn match pthTranscriptWord22_0 /\%(-\|\%(6[0-3]\|[1-5][0-9]\|[0-9]\)\%(,\%(6[0-3]\|[1-5][0-9]\|[0-9]\)\)*\)\%( \|$\)\@=/ contained nextgroup=@pthTranscriptTail23 skipwhite
syn cluster pthTranscriptTail22 contains=pthTranscriptWord22_0
syn match pthTranscriptWord21_0 /\%(sets\)\%( \|$\)\@=/ contained nextgroup=@pthTranscriptTail22 skipwhite
syn cluster pthTranscriptTail21 contains=pthTranscriptWord21_0
syn match pthTranscriptWord18_3 /\%(0\|-\=[1-9][0-9]*\)\%( \|$\)\@=/ contained nextgroup=@pthTranscriptTail21 skipwhite
syn match pthTranscriptWord18_4 /\%(none\)\%( \|$\)\@=/ contained
syn match pthTranscriptWord18_5 /\%(ECONNREFUSED\|EDEADLK\|EACCES\|EAGAIN\|EEXIST\|EINVAL\|ENOENT\|EBADF\|EBUSY\|EINTR\|EPERM\|ESRCH\|EIO\)\%( \|$\)\@=/ contained
syn cluster pthTranscriptTail18 contains=pthTranscriptWord18_0,pthTranscriptWord18_1,pthTranscriptWord18_2,pthTranscriptWord18_3,pthTranscriptWord18_4,pthTranscriptWord18_5
syn match pthTranscriptWord17_0 /\%(=\)\%( \|$\)\@=/ contained nextgroup=@pthTranscriptTail18 skipwhite
syn cluster pthTranscriptTail17 contains=pthTranscriptWord17_0
syn match pthTranscriptWord16_0 /\%(0\|-\=[1-9][0-9]*\)\%( \|$\)\@=/ contained nextgroup=@pthTranscriptTail17 skipwhite
syn cluster pthTranscriptTail16 contains=pthTranscriptWord16_0
syn match pthTranscriptWord15_0 /\%(0\|-\=[1-9][0-9]*\)\%( \|$\)\@=/ contained nextgroup=@pthTranscriptTail16 skipwhite
syn cluster pthTranscriptTail15 contains=pthTranscriptWord15_0
syn match pthTranscriptWord14_0 /\%(setkey\)\%( \|$\)\@=/ contained nextgroup=@pthTranscriptTail15 skipwhite
syn match pthTranscriptWord14_1 /\%(put\)\%( \|$\)\@=/ contained nextgroup=@pthTranscriptTail15 skipwhite
syn match pthTranscriptWord14_2 /\%(notify\)\%( \|$\)\@=/ contained nextgroup=@pthTranscriptTail15 skipwhite
syn match pthTranscriptWord14_3 /\%(release\)\%( \|$\)\@=/ contained nextgroup=@pthTranscriptTail16 skipwhite
syn match pthTranscriptWord25_0 /\%(v[0-9]\+\)\%( \|$\)\@=/ contained nextgroup=@pthTranscriptTail12 skipwhite
syn cluster pthTranscriptTail25 contains=pthTranscriptWord25_0
syn match pthTranscriptWord14_4 /\%(set\)\%( \|$\)\@=/ contained nextgroup=@pthTranscriptTail25 skipwhite
syn match pthTranscriptWord14_5 /\%(note\)\%( \|$\)\@=/ contained nextgroup=@pthTranscriptTail12 skipwhite
syn cluster pthTranscriptTail14 contains=pthTranscriptWord14_0,pthTranscriptWord14_1,pthTranscriptWord14_2,pthTranscriptWord14_3,pthTranscriptWord14_4,pthTranscriptWord14_5
syn match pthTranscriptWord11_2 /\%(act\)\%( \|$\)\@=/ contained nextgroup=@pthTranscriptTail14 skipwhite
syn match pthTranscriptWord27_0 /\%(arg\)\%( \|$\)\@=/ contained nextgroup=@pthTranscriptTail12 skipwhite
syn cluster pthTranscriptTail27 contains=pthTranscriptWord27_0
syn match pthTranscriptWord26_0 /\%(0\|[1-9][0-9]*\)\%( \|$\)\@=/ contained nextgroup=@pthTranscriptTail27 skipwhite
syn cluster pthTranscriptTail26 contains=pthTranscriptWord26_0
syn match pthTranscriptWord11_3 /\%(destructor\)\%( \|$\)\@=/ contained nextgroup=@pthTranscriptTail26 skipwhite
syn match pthTranscriptWord11_4 /\%(handler\)\%( \|$\)\@=/ contained nextgroup=@pthTranscriptTail26 skipwhite
syn match pthTranscriptWord11_5 /\%(withdraws\)\%( \|$\)\@=/ contained nextgroup=@pthTranscriptTail10 skipwhite
syn match pthTranscriptWord28_0 /\%(mutex\)\%( \|$\)\@=/ contained nextgroup=@pthTranscriptTail10 skipwhite
syn cluster pthTranscriptTail28 contains=pthTranscriptWord28_0
syn match pthTranscriptWord11_6 /\%(takes\)\%( \|$\)\@=/ contained nextgroup=@pthTranscriptTail28 skipwhite
syn match pthTranscriptWord11_7 /\%(canceled\)\%( \|$\)\@=/ contained
syn match pthTranscriptWord30_0 /\%(canceled\)\%( \|$\)\@=/ contained
syn match pthTranscriptWord30_1 /\%(retakes\)\%( \|$\)\@=/ contained
syn match pthTranscriptWord30_2 /\%(waits\)\%( \|$\)\@=/ contained
syn match pthTranscriptWord30_3 /\%(=\)\%( \|$\)\@=/ contained nextgroup=@pthTranscriptTail18 skipwhite
syn cluster pthTranscriptTail30 contains=pthTranscriptWord30_0,pthTranscriptWord30_1,pthTranscriptWord30_2,pthTranscriptWord30_3
syn match pthTranscriptWord29_0 /\%(0\|-\=[1-9][0-9]*\)\%( \|$\)\@=/ contained nextgroup=@pthTranscriptTail30 skipwhite
syn cluster pthTranscriptTail29 contains=pthTranscriptWord29_0
syn match pthTranscriptWord11_8 /\%(note\)\%( \|$\)\@=/ contained nextgroup=@pthTranscriptTail29 skipwhite
syn match pthTranscriptWord11_9 /\%(close\)\%( \|$\)\@=/ contained nextgroup=@pthTranscriptTail29 skipwhite
syn match pthTranscriptWord34_0 /\%(0\|-\=[1-9][0-9]*\)\%( \|$\)\@=/ contained nextgroup=@pthTranscriptTail29 skipwhite
syn cluster pthTranscriptTail34 contains=pthTranscriptWord34_0
syn match pthTranscriptWord33_0 /\%(-\|\%(6[0-3]\|[1-5][0-9]\|[0-9]\)\%(,\%(6[0-3]\|[1-5][0-9]\|[0-9]\)\)*\)\%( \|$\)\@=/ contained nextgroup=@pthTranscriptTail34 skipwhite
syn cluster pthTranscriptTail33 contains=pthTranscriptWord33_0
syn match pthTranscriptWord32_0 /\%(-\|\%(6[0-3]\|[1-5][0-9]\|[0-9]\)\%(,\%(6[0-3]\|[1-5][0-9]\|[0-9]\)\)*\)\%( \|$\)\@=/ contained nextgroup=@pthTranscriptTail33 skipwhite
syn cluster pthTranscriptTail32 contains=pthTranscriptWord32_0
syn match pthTranscriptWord31_0 /\%(-\|\%(6[0-3]\|[1-5][0-9]\|[0-9]\)\%(,\%(6[0-3]\|[1-5][0-9]\|[0-9]\)\)*\)\%( \|$\)\@=/ contained nextgroup=@pthTranscriptTail32 skipwhite
syn cluster pthTranscriptTail31 contains=pthTranscriptWord31_0
syn match pthTranscriptWord11_10 /\%(select_ev\)\%( \|$\)\@=/ contained nextgroup=@pthTranscriptTail31 skipwhite
syn match pthTranscriptWord37_0 /\%(-\|\%(6[0-3]\|[1-5][0-9]\|[0-9]\)\%(,\%(6[0-3]\|[1-5][0-9]\|[0-9]\)\)*\)\%( \|$\)\@=/ contained nextgroup=@pthTranscriptTail29 skipwhite
syn cluster pthTranscriptTail37 contains=pthTranscriptWord37_0
syn match pthTranscriptWord36_0 /\%(-\|\%(6[0-3]\|[1-5][0-9]\|[0-9]\)\%(,\%(6[0-3]\|[1-5][0-9]\|[0-9]\)\)*\)\%( \|$\)\@=/ contained nextgroup=@pthTranscriptTail37 skipwhite
syn cluster pthTranscriptTail36 contains=pthTranscriptWord36_0
syn match pthTranscriptWord35_0 /\%(-\|\%(6[0-3]\|[1-5][0-9]\|[0-9]\)\%(,\%(6[0-3]\|[1-5][0-9]\|[0-9]\)\)*\)\%( \|$\)\@=/ contained nextgroup=@pthTranscriptTail36 skipwhite
syn cluster pthTranscriptTail35 contains=pthTranscriptWord35_0
syn match pthTranscriptWord11_11 /\%(select\)\%( \|$\)\@=/ contained nextgroup=@pthTranscriptTail35 skipwhite
syn match pthTranscriptWord11_12 /\%(connect_ev\)\%( \|$\)\@=/ contained nextgroup=@pthTranscriptTail34 skipwhite
syn match pthTranscriptWord11_13 /\%(connect\)\%( \|$\)\@=/ contained nextgroup=@pthTranscriptTail29 skipwhite
syn match pthTranscriptWord11_14 /\%(accept_ev\)\%( \|$\)\@=/ contained nextgroup=@pthTranscriptTail34 skipwhite
syn match pthTranscriptWord11_15 /\%(accept\)\%( \|$\)\@=/ contained nextgroup=@pthTranscriptTail29 skipwhite
syn match pthTranscriptWord39_0 /\%(hex:\%([0-9a-f][0-9a-f]\)*\)\%( \|$\)\@=/ contained nextgroup=@pthTranscriptTail29 skipwhite
syn cluster pthTranscriptTail39 contains=pthTranscriptWord39_0
syn match pthTranscriptWord38_0 /\%(0\|-\=[1-9][0-9]*\)\%( \|$\)\@=/ contained nextgroup=@pthTranscriptTail39 skipwhite
syn cluster pthTranscriptTail38 contains=pthTranscriptWord38_0
syn match pthTranscriptWord11_16 /\%(write_ev\)\%( \|$\)\@=/ contained nextgroup=@pthTranscriptTail38 skipwhite
syn match pthTranscriptWord41_0 /\%(hex:\%([0-9a-f][0-9a-f]\)*\)\%( \|$\)\@=/ contained nextgroup=@pthTranscriptTail30 skipwhite
syn cluster pthTranscriptTail41 contains=pthTranscriptWord41_0
syn match pthTranscriptWord40_0 /\%(0\|-\=[1-9][0-9]*\)\%( \|$\)\@=/ contained nextgroup=@pthTranscriptTail41 skipwhite
syn cluster pthTranscriptTail40 contains=pthTranscriptWord40_0
syn match pthTranscriptWord11_17 /\%(write\)\%( \|$\)\@=/ contained nextgroup=@pthTranscriptTail40 skipwhite
syn match pthTranscriptWord42_0 /\%(0\|-\=[1-9][0-9]*\)\%( \|$\)\@=/ contained nextgroup=@pthTranscriptTail34 skipwhite
syn cluster pthTranscriptTail42 contains=pthTranscriptWord42_0
syn match pthTranscriptWord11_18 /\%(read_ev\)\%( \|$\)\@=/ contained nextgroup=@pthTranscriptTail42 skipwhite
syn match pthTranscriptWord11_19 /\%(read\)\%( \|$\)\@=/ contained nextgroup=@pthTranscriptTail34 skipwhite
syn match pthTranscriptWord11_20 /\%(sleep\)\%( \|$\)\@=/ contained nextgroup=@pthTranscriptTail29 skipwhite
syn match pthTranscriptWord11_21 /\%(usleep\)\%( \|$\)\@=/ contained nextgroup=@pthTranscriptTail29 skipwhite
syn match pthTranscriptWord11_22 /\%(barrier_reach\)\%( \|$\)\@=/ contained nextgroup=@pthTranscriptTail29 skipwhite
syn match pthTranscriptWord11_23 /\%(barrier_init\)\%( \|$\)\@=/ contained nextgroup=@pthTranscriptTail34 skipwhite
syn match pthTranscriptWord11_24 /\%(cond_notify\)\%( \|$\)\@=/ contained nextgroup=@pthTranscriptTail34 skipwhite
syn match pthTranscriptWord11_25 /\%(cond_await\)\%( \|$\)\@=/ contained nextgroup=@pthTranscriptTail42 skipwhite
syn match pthTranscriptWord11_26 /\%(cond_init\)\%( \|$\)\@=/ contained nextgroup=@pthTranscriptTail29 skipwhite
syn match pthTranscriptWord11_27 /\%(rw_release\)\%( \|$\)\@=/ contained nextgroup=@pthTranscriptTail29 skipwhite
syn match pthTranscriptWord44_0 /\%(rd\|rw\)\%( \|$\)\@=/ contained nextgroup=@pthTranscriptTail34 skipwhite
syn cluster pthTranscriptTail44 contains=pthTranscriptWord44_0
syn match pthTranscriptWord43_0 /\%(0\|-\=[1-9][0-9]*\)\%( \|$\)\@=/ contained nextgroup=@pthTranscriptTail44 skipwhite
syn cluster pthTranscriptTail43 contains=pthTranscriptWord43_0
syn match pthTranscriptWord11_28 /\%(rw_acquire\)\%( \|$\)\@=/ contained nextgroup=@pthTranscriptTail43 skipwhite
syn match pthTranscriptWord11_29 /\%(rw_init\)\%( \|$\)\@=/ contained nextgroup=@pthTranscriptTail29 skipwhite
syn match pthTranscriptWord11_30 /\%(mutex_release\)\%( \|$\)\@=/ contained nextgroup=@pthTranscriptTail29 skipwhite
syn match pthTranscriptWord11_31 /\%(mutex_acquire\)\%( \|$\)\@=/ contained nextgroup=@pthTranscriptTail42 skipwhite
syn match pthTranscriptWord11_32 /\%(mutex_init\)\%( \|$\)\@=/ contained nextgroup=@pthTranscriptTail29 skipwhite
syn match pthTranscriptWord11_33 /\%(cleanup_pop\)\%( \|$\)\@=/ contained nextgroup=@pthTranscriptTail29 skipwhite
syn match pthTranscriptWord11_34 /\%(cleanup_push\)\%( \|$\)\@=/ contained nextgroup=@pthTranscriptTail34 skipwhite
syn match pthTranscriptWord11_35 /\%(port_destroy\)\%( \|$\)\@=/ contained nextgroup=@pthTranscriptTail29 skipwhite
syn match pthTranscriptWord11_36 /\%(reply\)\%( \|$\)\@=/ contained nextgroup=@pthTranscriptTail34 skipwhite
syn match pthTranscriptWord11_37 /\%(port_get\)\%( \|$\)\@=/ contained nextgroup=@pthTranscriptTail29 skipwhite
syn match pthTranscriptWord11_38 /\%(port_put\)\%( \|$\)\@=/ contained nextgroup=@pthTranscriptTail42 skipwhite
syn match pthTranscriptWord11_39 /\%(port_pending\)\%( \|$\)\@=/ contained nextgroup=@pthTranscriptTail29 skipwhite
syn match pthTranscriptWord45_0 /\%([a-z0-9_.]\+\)\%( \|$\)\@=/ contained nextgroup=@pthTranscriptTail30 skipwhite
syn cluster pthTranscriptTail45 contains=pthTranscriptWord45_0
syn match pthTranscriptWord11_40 /\%(port_find\)\%( \|$\)\@=/ contained nextgroup=@pthTranscriptTail45 skipwhite
syn match pthTranscriptWord46_0 /\%([a-z0-9_.]\+\)\%( \|$\)\@=/ contained nextgroup=@pthTranscriptTail30 skipwhite
syn match pthTranscriptWord46_1 /\%(-\)\%( \|$\)\@=/ contained nextgroup=@pthTranscriptTail30 skipwhite
syn cluster pthTranscriptTail46 contains=pthTranscriptWord46_0,pthTranscriptWord46_1
syn match pthTranscriptWord11_41 /\%(port_create\)\%( \|$\)\@=/ contained nextgroup=@pthTranscriptTail46 skipwhite
syn match pthTranscriptWord11_42 /\%(key_get\)\%( \|$\)\@=/ contained nextgroup=@pthTranscriptTail29 skipwhite
syn match pthTranscriptWord11_43 /\%(key_set\)\%( \|$\)\@=/ contained nextgroup=@pthTranscriptTail34 skipwhite
syn match pthTranscriptWord11_44 /\%(key_delete\)\%( \|$\)\@=/ contained nextgroup=@pthTranscriptTail29 skipwhite
syn match pthTranscriptWord47_0 /\%(-\)\%( \|$\)\@=/ contained nextgroup=@pthTranscriptTail30 skipwhite
syn match pthTranscriptWord47_1 /\%(0\|-\=[1-9][0-9]*\)\%( \|$\)\@=/ contained nextgroup=@pthTranscriptTail30 skipwhite
syn cluster pthTranscriptTail47 contains=pthTranscriptWord47_0,pthTranscriptWord47_1
syn match pthTranscriptWord11_45 /\%(key_create\)\%( \|$\)\@=/ contained nextgroup=@pthTranscriptTail47 skipwhite
syn match pthTranscriptWord49_0 /\%(this\|all\)\%( \|$\)\@=/ contained nextgroup=@pthTranscriptTail30 skipwhite
syn cluster pthTranscriptTail49 contains=pthTranscriptWord49_0
syn match pthTranscriptWord48_0 /\%(0\|-\=[1-9][0-9]*\)\%( \|$\)\@=/ contained nextgroup=@pthTranscriptTail49 skipwhite
syn cluster pthTranscriptTail48 contains=pthTranscriptWord48_0
syn match pthTranscriptWord11_46 /\%(ev_free\)\%( \|$\)\@=/ contained nextgroup=@pthTranscriptTail48 skipwhite
syn match pthTranscriptWord11_47 /\%(ev_kind\)\%( \|$\)\@=/ contained nextgroup=@pthTranscriptTail29 skipwhite
syn match pthTranscriptWord11_48 /\%(ev_status\)\%( \|$\)\@=/ contained nextgroup=@pthTranscriptTail29 skipwhite
syn match pthTranscriptWord51_0 /\%(next_occurred\|prev_occurred\|next\|prev\)\%( \|$\)\@=/ contained nextgroup=@pthTranscriptTail30 skipwhite
syn cluster pthTranscriptTail51 contains=pthTranscriptWord51_0
syn match pthTranscriptWord50_0 /\%(0\|-\=[1-9][0-9]*\)\%( \|$\)\@=/ contained nextgroup=@pthTranscriptTail51 skipwhite
syn cluster pthTranscriptTail50 contains=pthTranscriptWord50_0
syn match pthTranscriptWord11_49 /\%(ev_walk\)\%( \|$\)\@=/ contained nextgroup=@pthTranscriptTail50 skipwhite
syn match pthTranscriptWord11_50 /\%(ev_isolate\)\%( \|$\)\@=/ contained nextgroup=@pthTranscriptTail29 skipwhite
syn match pthTranscriptWord11_51 /\%(ev_concat\)\%( \|$\)\@=/ contained nextgroup=@pthTranscriptTail34 skipwhite
syn match pthTranscriptWord53_0 /\%(ev_func\)\%( \|$\)\@=/ contained nextgroup=@pthTranscriptTail42 skipwhite
syn match pthTranscriptWord54_0 /\%(waiting\|ready\|dead\|new\)\%( \|$\)\@=/ contained nextgroup=@pthTranscriptTail29 skipwhite
syn cluster pthTranscriptTail54 contains=pthTranscriptWord54_0
syn match pthTranscriptWord53_1 /\%(ev_tid\)\%( \|$\)\@=/ contained nextgroup=@pthTranscriptTail54 skipwhite
syn match pthTranscriptWord53_2 /\%(ev_cond\|ev_time\|ev_msg\)\%( \|$\)\@=/ contained nextgroup=@pthTranscriptTail29 skipwhite
syn match pthTranscriptWord57_0 /\%(-\|\%(6[0-3]\|[1-5][0-9]\|[0-9]\)\%(,\%(6[0-3]\|[1-5][0-9]\|[0-9]\)\)*\)\%( \|$\)\@=/ contained nextgroup=@pthTranscriptTail30 skipwhite
syn cluster pthTranscriptTail57 contains=pthTranscriptWord57_0
syn match pthTranscriptWord56_0 /\%(-\|\%(6[0-3]\|[1-5][0-9]\|[0-9]\)\%(,\%(6[0-3]\|[1-5][0-9]\|[0-9]\)\)*\)\%( \|$\)\@=/ contained nextgroup=@pthTranscriptTail57 skipwhite
syn cluster pthTranscriptTail56 contains=pthTranscriptWord56_0
syn match pthTranscriptWord55_0 /\%(-\|\%(6[0-3]\|[1-5][0-9]\|[0-9]\)\%(,\%(6[0-3]\|[1-5][0-9]\|[0-9]\)\)*\)\%( \|$\)\@=/ contained nextgroup=@pthTranscriptTail56 skipwhite
syn cluster pthTranscriptTail55 contains=pthTranscriptWord55_0
syn match pthTranscriptWord53_3 /\%(ev_select\)\%( \|$\)\@=/ contained nextgroup=@pthTranscriptTail55 skipwhite
syn match pthTranscriptWord58_0 /\%(rwx\|rw\|rx\|wx\|r\|w\|x\)\%( \|$\)\@=/ contained nextgroup=@pthTranscriptTail29 skipwhite
syn cluster pthTranscriptTail58 contains=pthTranscriptWord58_0
syn match pthTranscriptWord53_4 /\%(ev_fd\)\%( \|$\)\@=/ contained nextgroup=@pthTranscriptTail58 skipwhite
syn cluster pthTranscriptTail53 contains=pthTranscriptWord53_0,pthTranscriptWord53_1,pthTranscriptWord53_2,pthTranscriptWord53_3,pthTranscriptWord53_4
syn match pthTranscriptWord52_0 /\%(0\|-\=[1-9][0-9]*\)\%( \|$\)\@=/ contained nextgroup=@pthTranscriptTail53 skipwhite
syn cluster pthTranscriptTail52 contains=pthTranscriptWord52_0
syn match pthTranscriptWord11_52 /\%(chain\)\%( \|$\)\@=/ contained nextgroup=@pthTranscriptTail52 skipwhite
syn match pthTranscriptWord11_53 /\%(ev_func\)\%( \|$\)\@=/ contained nextgroup=@pthTranscriptTail42 skipwhite
syn match pthTranscriptWord11_54 /\%(ev_tid\)\%( \|$\)\@=/ contained nextgroup=@pthTranscriptTail54 skipwhite
syn match pthTranscriptWord11_55 /\%(ev_cond\)\%( \|$\)\@=/ contained nextgroup=@pthTranscriptTail29 skipwhite
syn match pthTranscriptWord11_56 /\%(ev_msg\)\%( \|$\)\@=/ contained nextgroup=@pthTranscriptTail29 skipwhite
syn match pthTranscriptWord11_57 /\%(ev_time\)\%( \|$\)\@=/ contained nextgroup=@pthTranscriptTail29 skipwhite
syn match pthTranscriptWord11_58 /\%(ev_select\)\%( \|$\)\@=/ contained nextgroup=@pthTranscriptTail55 skipwhite
syn match pthTranscriptWord11_59 /\%(ev_fd\)\%( \|$\)\@=/ contained nextgroup=@pthTranscriptTail58 skipwhite
syn match pthTranscriptWord11_60 /\%(cancel_state\)\%( \|$\)\@=/ contained nextgroup=@pthTranscriptTail29 skipwhite
syn match pthTranscriptWord11_61 /\%(cancel_point\)\%( \|$\)\@=/ contained nextgroup=@pthTranscriptTail30 skipwhite
syn match pthTranscriptWord11_62 /\%(timeout\)\%( \|$\)\@=/ contained nextgroup=@pthTranscriptTail29 skipwhite
syn match pthTranscriptWord11_63 /\%(fdmode\)\%( \|$\)\@=/ contained nextgroup=@pthTranscriptTail34 skipwhite
syn match pthTranscriptWord11_64 /\%(exit\)\%( \|$\)\@=/ contained nextgroup=@pthTranscriptTail29 skipwhite
syn match pthTranscriptWord11_65 /\%(join\)\%( \|$\)\@=/ contained nextgroup=@pthTranscriptTail29 skipwhite
syn match pthTranscriptWord11_66 /\%(abort\)\%( \|$\)\@=/ contained nextgroup=@pthTranscriptTail29 skipwhite
syn match pthTranscriptWord11_67 /\%(cancel\)\%( \|$\)\@=/ contained nextgroup=@pthTranscriptTail29 skipwhite
syn match pthTranscriptWord11_68 /\%(wait\)\%( \|$\)\@=/ contained nextgroup=@pthTranscriptTail29 skipwhite
syn match pthTranscriptWord11_69 /\%(nap\)\%( \|$\)\@=/ contained nextgroup=@pthTranscriptTail29 skipwhite
syn match pthTranscriptWord11_70 /\%(yield\)\%( \|$\)\@=/ contained nextgroup=@pthTranscriptTail29 skipwhite
syn match pthTranscriptWord11_71 /\%(resume\)\%( \|$\)\@=/ contained nextgroup=@pthTranscriptTail29 skipwhite
syn match pthTranscriptWord11_72 /\%(suspend\)\%( \|$\)\@=/ contained nextgroup=@pthTranscriptTail29 skipwhite
syn match pthTranscriptWord11_73 /\%(self\)\%( \|$\)\@=/ contained nextgroup=@pthTranscriptTail30 skipwhite
syn match pthTranscriptWord11_74 /\%(once\)\%( \|$\)\@=/ contained nextgroup=@pthTranscriptTail42 skipwhite
syn match pthTranscriptWord11_75 /\%(spawn\)\%( \|$\)\@=/ contained nextgroup=@pthTranscriptTail42 skipwhite
syn match pthTranscriptWord11_76 /\%(attr_destroy\)\%( \|$\)\@=/ contained nextgroup=@pthTranscriptTail29 skipwhite
syn match pthTranscriptWord60_0 /\%(dispatches\|joinable\|cancel\|bound\|state\|name\|prio\)\%( \|$\)\@=/ contained nextgroup=@pthTranscriptTail30 skipwhite
syn cluster pthTranscriptTail60 contains=pthTranscriptWord60_0
syn match pthTranscriptWord59_0 /\%(0\|-\=[1-9][0-9]*\)\%( \|$\)\@=/ contained nextgroup=@pthTranscriptTail60 skipwhite
syn cluster pthTranscriptTail59 contains=pthTranscriptWord59_0
syn match pthTranscriptWord11_77 /\%(attr_get\)\%( \|$\)\@=/ contained nextgroup=@pthTranscriptTail59 skipwhite
syn match pthTranscriptWord62_0 /\%(dispatches\|joinable\|cancel\|bound\|state\|prio\)\%( \|$\)\@=/ contained nextgroup=@pthTranscriptTail29 skipwhite
syn match pthTranscriptWord62_1 /\%(name\)\%( \|$\)\@=/ contained nextgroup=@pthTranscriptTail45 skipwhite
syn cluster pthTranscriptTail62 contains=pthTranscriptWord62_0,pthTranscriptWord62_1
syn match pthTranscriptWord61_0 /\%(0\|-\=[1-9][0-9]*\)\%( \|$\)\@=/ contained nextgroup=@pthTranscriptTail62 skipwhite
syn cluster pthTranscriptTail61 contains=pthTranscriptWord61_0
syn match pthTranscriptWord11_78 /\%(attr_set\)\%( \|$\)\@=/ contained nextgroup=@pthTranscriptTail61 skipwhite
syn match pthTranscriptWord11_79 /\%(attr_init\)\%( \|$\)\@=/ contained nextgroup=@pthTranscriptTail29 skipwhite
syn match pthTranscriptWord11_80 /\%(attr_of\)\%( \|$\)\@=/ contained nextgroup=@pthTranscriptTail29 skipwhite
syn match pthTranscriptWord11_81 /\%(attr_new\)\%( \|$\)\@=/ contained nextgroup=@pthTranscriptTail30 skipwhite
syn match pthTranscriptWord63_0 /\%(suspended\|running\|threads\|waiting\|ready\|dead\|new\)\%( \|$\)\@=/ contained nextgroup=@pthTranscriptTail30 skipwhite
syn match pthTranscriptWord63_1 /\%(favournew\|name\|prio\)\%( \|$\)\@=/ contained nextgroup=@pthTranscriptTail29 skipwhite
syn cluster pthTranscriptTail63 contains=pthTranscriptWord63_0,pthTranscriptWord63_1
syn match pthTranscriptWord11_82 /\%(ctrl\)\%( \|$\)\@=/ contained nextgroup=@pthTranscriptTail63 skipwhite
syn match pthTranscriptWord11_83 /\%(kill\)\%( \|$\)\@=/ contained nextgroup=@pthTranscriptTail30 skipwhite
syn cluster pthTranscriptTail11 contains=pthTranscriptWord11_0,pthTranscriptWord11_1,pthTranscriptWord11_2,pthTranscriptWord11_3,pthTranscriptWord11_4,pthTranscriptWord11_5,pthTranscriptWord11_6,pthTranscriptWord11_7,pthTranscriptWord11_8,pthTranscriptWord11_9,pthTranscriptWord11_10,pthTranscriptWord11_11,pthTranscriptWord11_12,pthTranscriptWord11_13,pthTranscriptWord11_14,pthTranscriptWord11_15,pthTranscriptWord11_16,pthTranscriptWord11_17,pthTranscriptWord11_18,pthTranscriptWord11_19,pthTranscriptWord11_20,pthTranscriptWord11_21,pthTranscriptWord11_22,pthTranscriptWord11_23,pthTranscriptWord11_24,pthTranscriptWord11_25,pthTranscriptWord11_26,pthTranscriptWord11_27,pthTranscriptWord11_28,pthTranscriptWord11_29,pthTranscriptWord11_30,pthTranscriptWord11_31,pthTranscriptWord11_32,pthTranscriptWord11_33,pthTranscriptWord11_34,pthTranscriptWord11_35,pthTranscriptWord11_36,pthTranscriptWord11_37,pthTranscriptWord11_38,pthTranscriptWord11_39,pthTranscriptWord11_40,pthTranscriptWord11_41,pthTranscriptWord11_42,pthTranscriptWord11_43,pthTranscriptWord11_44,pthTranscriptWord11_45,pthTranscriptWord11_46,pthTranscriptWord11_47,pthTranscriptWord11_48,pthTranscriptWord11_49,pthTranscriptWord11_50,pthTranscriptWord11_51,pthTranscriptWord11_52,pthTranscriptWord11_53,pthTranscriptWord11_54,pthTranscriptWord11_55,pthTranscriptWord11_56,pthTranscriptWord11_57,pthTranscriptWord11_58,pthTranscriptWord11_59,pthTranscriptWord11_60,pthTranscriptWord11_61,pthTranscriptWord11_62,pthTranscriptWord11_63,pthTranscriptWord11_64,pthTranscriptWord11_65,pthTranscriptWord11_66,pthTranscriptWord11_67,pthTranscriptWord11_68,pthTranscriptWord11_69,pthTranscriptWord11_70,pthTranscriptWord11_71,pthTranscriptWord11_72,pthTranscriptWord11_73,pthTranscriptWord11_74,pthTranscriptWord11_75,pthTranscriptWord11_76,pthTranscriptWord11_77,pthTranscriptWord11_78,pthTranscriptWord11_79,pthTranscriptWord11_80,pthTranscriptWord11_81,pthTranscriptWord11_82,pthTranscriptWord11_83
syn match pthTranscriptThread11 /^\%(t[1-9][0-9]*\)\%( \|$\)\@=/ nextgroup=@pthTranscriptTail11 skipwhite
syn match pthTranscriptWord65_0 /\%(rank\)\%( \|$\)\@=/ contained nextgroup=@pthTranscriptTail12 skipwhite
syn cluster pthTranscriptTail65 contains=pthTranscriptWord65_0
syn match pthTranscriptWord64_0 /\%(t[1-9][0-9]*\)\%( \|$\)\@=/ contained nextgroup=@pthTranscriptTail65 skipwhite
syn cluster pthTranscriptTail64 contains=pthTranscriptWord64_0
syn match pthTranscriptWake64 /^\%(wake\)\%( \|$\)\@=/ nextgroup=@pthTranscriptTail64 skipwhite
syn match pthTranscriptWord66_0 /\%(to\)\%( \|$\)\@=/ contained nextgroup=@pthTranscriptTail10 skipwhite
syn cluster pthTranscriptTail66 contains=pthTranscriptWord66_0
syn match pthTranscriptWake66 /^\%(idle\)\%( \|$\)\@=/ nextgroup=@pthTranscriptTail66 skipwhite
syn match pthTranscriptWord67_0 /\%(limit\)\%( \|$\)\@=/ contained nextgroup=@pthTranscriptTail10 skipwhite
syn cluster pthTranscriptTail67 contains=pthTranscriptWord67_0
syn match pthTranscriptEnding67 /^\%(step\)\%( \|$\)\@=/ nextgroup=@pthTranscriptTail67 skipwhite
syn match pthTranscriptEnding12 /^\%(ended\)\%( \|$\)\@=/ nextgroup=@pthTranscriptTail12 skipwhite
syn match pthTranscriptEnding /^\%(killed\)\%( \|$\)\@=/
syn match pthTranscriptLeft /\%(t[1-9][0-9]*\)\%( \|$\)\@=/ contained nextgroup=pthTranscriptLeft skipwhite
syn match pthTranscriptEnding /^\%(stalled\)\%( \|$\)\@=/ nextgroup=pthTranscriptLeft skipwhite
syn match pthTranscriptWord74_0 /\%(time\)\%( \|$\)\@=/ contained nextgroup=@pthTranscriptTail10 skipwhite
syn cluster pthTranscriptTail74 contains=pthTranscriptWord74_0
syn match pthTranscriptWord73_0 /\%(0\|[1-9][0-9]*\)\%( \|$\)\@=/ contained nextgroup=@pthTranscriptTail74 skipwhite
syn cluster pthTranscriptTail73 contains=pthTranscriptWord73_0
syn match pthTranscriptWord72_0 /\%(steps\)\%( \|$\)\@=/ contained nextgroup=@pthTranscriptTail73 skipwhite
syn cluster pthTranscriptTail72 contains=pthTranscriptWord72_0
syn match pthTranscriptWord71_0 /\%(0\|[1-9][0-9]*\)\%( \|$\)\@=/ contained nextgroup=@pthTranscriptTail72 skipwhite
syn cluster pthTranscriptTail71 contains=pthTranscriptWord71_0
syn match pthTranscriptWord70_0 /\%(turns\)\%( \|$\)\@=/ contained nextgroup=@pthTranscriptTail71 skipwhite
syn cluster pthTranscriptTail70 contains=pthTranscriptWord70_0
syn match pthTranscriptWord69_0 /\%(0\|[1-9][0-9]*\)\%( \|$\)\@=/ contained nextgroup=@pthTranscriptTail70 skipwhite
syn cluster pthTranscriptTail69 contains=pthTranscriptWord69_0
syn match pthTranscriptWord68_0 /\%(threads\)\%( \|$\)\@=/ contained nextgroup=@pthTranscriptTail69 skipwhite
syn cluster pthTranscriptTail68 contains=pthTranscriptWord68_0
syn match pthTranscriptEnding68 /^\%(summary\)\%( \|$\)\@=/ nextgroup=@pthTranscriptTail68 skipwhite
syn sync minlines=1

hi def link pthTranscriptNumber Number
hi def link pthTranscriptWord1_0 pthTranscriptNumber
hi def link pthTranscriptTurn Statement
hi def link pthTranscriptWord2_0 pthTranscriptTurn
hi def link pthTranscriptWord3_0 pthTranscriptNumber
hi def link pthTranscriptThread Identifier
hi def link pthTranscriptWord4_0 pthTranscriptThread
hi def link pthTranscriptWord5_0 pthTranscriptTurn
hi def link pthTranscriptWord6_0 pthTranscriptNumber
hi def link pthTranscriptWord7_0 pthTranscriptTurn
hi def link pthTranscriptWord8_0 pthTranscriptNumber
hi def link pthTranscriptWord9_0 pthTranscriptTurn
hi def link pthTranscriptWord10_0 pthTranscriptNumber
hi def link pthTranscriptTurn1 pthTranscriptTurn
hi def link pthTranscriptEnd Label
hi def link pthTranscriptWord11_0 pthTranscriptEnd
hi def link pthTranscriptWord12_0 pthTranscriptNumber
hi def link pthTranscriptMark Keyword
hi def link pthTranscriptWord11_1 pthTranscriptMark
hi def link pthTranscriptWord13_0 pthTranscriptMark
hi def link pthTranscriptWord13_1 pthTranscriptMark
hi def link pthTranscriptWord11_2 pthTranscriptMark
hi def link pthTranscriptAct Function
hi def link pthTranscriptWord14_0 pthTranscriptAct
hi def link pthTranscriptWord15_0 pthTranscriptNumber
hi def link pthTranscriptWord16_0 pthTranscriptNumber
hi def link pthTranscriptEquals Operator
hi def link pthTranscriptWord17_0 pthTranscriptEquals
hi def link pthTranscriptName String
hi def link pthTranscriptWord18_0 pthTranscriptName
hi def link pthTranscriptAnswer Constant
hi def link pthTranscriptWord18_1 pthTranscriptAnswer
hi def link pthTranscriptWord19_0 pthTranscriptNumber
hi def link pthTranscriptWord20_0 pthTranscriptAnswer
hi def link pthTranscriptHex String
hi def link pthTranscriptWord18_2 pthTranscriptHex
hi def link pthTranscriptWord18_3 pthTranscriptAnswer
hi def link pthTranscriptWord21_0 pthTranscriptAnswer
hi def link pthTranscriptSet Number
hi def link pthTranscriptWord22_0 pthTranscriptSet
hi def link pthTranscriptWord23_0 pthTranscriptSet
hi def link pthTranscriptWord24_0 pthTranscriptSet
hi def link pthTranscriptWord18_4 pthTranscriptAnswer
hi def link pthTranscriptError WarningMsg
hi def link pthTranscriptWord18_5 pthTranscriptError
hi def link pthTranscriptWord14_1 pthTranscriptAct
hi def link pthTranscriptWord14_2 pthTranscriptAct
hi def link pthTranscriptWord14_3 pthTranscriptAct
hi def link pthTranscriptWord14_4 pthTranscriptAct
hi def link pthTranscriptRegister Identifier
hi def link pthTranscriptWord25_0 pthTranscriptRegister
hi def link pthTranscriptWord14_5 pthTranscriptAct
hi def link pthTranscriptWord11_3 pthTranscriptMark
hi def link pthTranscriptWord26_0 pthTranscriptNumber
hi def link pthTranscriptWord27_0 pthTranscriptMark
hi def link pthTranscriptWord11_4 pthTranscriptMark
hi def link pthTranscriptWord11_5 pthTranscriptMark
hi def link pthTranscriptWord11_6 pthTranscriptMark
hi def link pthTranscriptWord28_0 pthTranscriptMark
hi def link pthTranscriptWord11_7 pthTranscriptEnd
hi def link pthTranscriptStatement Statement
hi def link pthTranscriptWord11_8 pthTranscriptStatement
hi def link pthTranscriptWord29_0 pthTranscriptNumber
hi def link pthTranscriptWord30_0 pthTranscriptEnd
hi def link pthTranscriptWait Todo
hi def link pthTranscriptWord30_1 pthTranscriptWait
hi def link pthTranscriptWord30_2 pthTranscriptWait
hi def link pthTranscriptWord30_3 pthTranscriptEquals
hi def link pthTranscriptCallIo Function
hi def link pthTranscriptWord11_9 pthTranscriptCallIo
hi def link pthTranscriptWord11_10 pthTranscriptCallIo
hi def link pthTranscriptWord31_0 pthTranscriptSet
hi def link pthTranscriptWord32_0 pthTranscriptSet
hi def link pthTranscriptWord33_0 pthTranscriptSet
hi def link pthTranscriptWord34_0 pthTranscriptNumber
hi def link pthTranscriptWord11_11 pthTranscriptCallIo
hi def link pthTranscriptWord35_0 pthTranscriptSet
hi def link pthTranscriptWord36_0 pthTranscriptSet
hi def link pthTranscriptWord37_0 pthTranscriptSet
hi def link pthTranscriptWord11_12 pthTranscriptCallIo
hi def link pthTranscriptWord11_13 pthTranscriptCallIo
hi def link pthTranscriptWord11_14 pthTranscriptCallIo
hi def link pthTranscriptWord11_15 pthTranscriptCallIo
hi def link pthTranscriptWord11_16 pthTranscriptCallIo
hi def link pthTranscriptWord38_0 pthTranscriptNumber
hi def link pthTranscriptWord39_0 pthTranscriptHex
hi def link pthTranscriptWord11_17 pthTranscriptCallIo
hi def link pthTranscriptWord40_0 pthTranscriptNumber
hi def link pthTranscriptWord41_0 pthTranscriptHex
hi def link pthTranscriptWord11_18 pthTranscriptCallIo
hi def link pthTranscriptWord42_0 pthTranscriptNumber
hi def link pthTranscriptWord11_19 pthTranscriptCallIo
hi def link pthTranscriptWord11_20 pthTranscriptCallIo
hi def link pthTranscriptWord11_21 pthTranscriptCallIo
hi def link pthTranscriptCallBarriers Function
hi def link pthTranscriptWord11_22 pthTranscriptCallBarriers
hi def link pthTranscriptWord11_23 pthTranscriptCallBarriers
hi def link pthTranscriptCallConditions Function
hi def link pthTranscriptWord11_24 pthTranscriptCallConditions
hi def link pthTranscriptWord11_25 pthTranscriptCallConditions
hi def link pthTranscriptWord11_26 pthTranscriptCallConditions
hi def link pthTranscriptCallRwlocks Function
hi def link pthTranscriptWord11_27 pthTranscriptCallRwlocks
hi def link pthTranscriptWord11_28 pthTranscriptCallRwlocks
hi def link pthTranscriptWord43_0 pthTranscriptNumber
hi def link pthTranscriptOption Constant
hi def link pthTranscriptWord44_0 pthTranscriptOption
hi def link pthTranscriptWord11_29 pthTranscriptCallRwlocks
hi def link pthTranscriptCallMutexes Function
hi def link pthTranscriptWord11_30 pthTranscriptCallMutexes
hi def link pthTranscriptWord11_31 pthTranscriptCallMutexes
hi def link pthTranscriptWord11_32 pthTranscriptCallMutexes
hi def link pthTranscriptCallCleanups Function
hi def link pthTranscriptWord11_33 pthTranscriptCallCleanups
hi def link pthTranscriptWord11_34 pthTranscriptCallCleanups
hi def link pthTranscriptCallPorts Function
hi def link pthTranscriptWord11_35 pthTranscriptCallPorts
hi def link pthTranscriptWord11_36 pthTranscriptCallPorts
hi def link pthTranscriptWord11_37 pthTranscriptCallPorts
hi def link pthTranscriptWord11_38 pthTranscriptCallPorts
hi def link pthTranscriptWord11_39 pthTranscriptCallPorts
hi def link pthTranscriptWord11_40 pthTranscriptCallPorts
hi def link pthTranscriptWord45_0 pthTranscriptName
hi def link pthTranscriptWord11_41 pthTranscriptCallPorts
hi def link pthTranscriptWord46_0 pthTranscriptName
hi def link pthTranscriptNone Special
hi def link pthTranscriptWord46_1 pthTranscriptNone
hi def link pthTranscriptCallKeys Function
hi def link pthTranscriptWord11_42 pthTranscriptCallKeys
hi def link pthTranscriptWord11_43 pthTranscriptCallKeys
hi def link pthTranscriptWord11_44 pthTranscriptCallKeys
hi def link pthTranscriptWord11_45 pthTranscriptCallKeys
hi def link pthTranscriptWord47_0 pthTranscriptNone
hi def link pthTranscriptWord47_1 pthTranscriptNumber
hi def link pthTranscriptCallEvents Function
hi def link pthTranscriptWord11_46 pthTranscriptCallEvents
hi def link pthTranscriptWord48_0 pthTranscriptNumber
hi def link pthTranscriptWord49_0 pthTranscriptOption
hi def link pthTranscriptWord11_47 pthTranscriptCallEvents
hi def link pthTranscriptWord11_48 pthTranscriptCallEvents
hi def link pthTranscriptWord11_49 pthTranscriptCallEvents
hi def link pthTranscriptWord50_0 pthTranscriptNumber
hi def link pthTranscriptWord51_0 pthTranscriptOption
hi def link pthTranscriptWord11_50 pthTranscriptCallEvents
hi def link pthTranscriptWord11_51 pthTranscriptCallEvents
hi def link pthTranscriptWord11_52 pthTranscriptCallEvents
hi def link pthTranscriptWord52_0 pthTranscriptNumber
hi def link pthTranscriptWord53_0 pthTranscriptCallEvents
hi def link pthTranscriptWord53_1 pthTranscriptCallEvents
hi def link pthTranscriptWord54_0 pthTranscriptOption
hi def link pthTranscriptWord53_2 pthTranscriptCallEvents
hi def link pthTranscriptWord53_3 pthTranscriptCallEvents
hi def link pthTranscriptWord55_0 pthTranscriptSet
hi def link pthTranscriptWord56_0 pthTranscriptSet
hi def link pthTranscriptWord57_0 pthTranscriptSet
hi def link pthTranscriptWord53_4 pthTranscriptCallEvents
hi def link pthTranscriptWord58_0 pthTranscriptOption
hi def link pthTranscriptWord11_53 pthTranscriptCallEvents
hi def link pthTranscriptWord11_54 pthTranscriptCallEvents
hi def link pthTranscriptWord11_55 pthTranscriptCallEvents
hi def link pthTranscriptWord11_56 pthTranscriptCallEvents
hi def link pthTranscriptWord11_57 pthTranscriptCallEvents
hi def link pthTranscriptWord11_58 pthTranscriptCallEvents
hi def link pthTranscriptWord11_59 pthTranscriptCallEvents
hi def link pthTranscriptCallCancellation Function
hi def link pthTranscriptWord11_60 pthTranscriptCallCancellation
hi def link pthTranscriptWord11_61 pthTranscriptCallCancellation
hi def link pthTranscriptCallUtilities Function
hi def link pthTranscriptWord11_62 pthTranscriptCallUtilities
hi def link pthTranscriptWord11_63 pthTranscriptCallUtilities
hi def link pthTranscriptCallThreads Function
hi def link pthTranscriptWord11_64 pthTranscriptCallThreads
hi def link pthTranscriptWord11_65 pthTranscriptCallThreads
hi def link pthTranscriptWord11_66 pthTranscriptCallThreads
hi def link pthTranscriptWord11_67 pthTranscriptCallThreads
hi def link pthTranscriptWord11_68 pthTranscriptCallThreads
hi def link pthTranscriptWord11_69 pthTranscriptCallThreads
hi def link pthTranscriptWord11_70 pthTranscriptCallThreads
hi def link pthTranscriptWord11_71 pthTranscriptCallThreads
hi def link pthTranscriptWord11_72 pthTranscriptCallThreads
hi def link pthTranscriptWord11_73 pthTranscriptCallThreads
hi def link pthTranscriptWord11_74 pthTranscriptCallThreads
hi def link pthTranscriptWord11_75 pthTranscriptCallThreads
hi def link pthTranscriptCallAttributes Function
hi def link pthTranscriptWord11_76 pthTranscriptCallAttributes
hi def link pthTranscriptWord11_77 pthTranscriptCallAttributes
hi def link pthTranscriptWord59_0 pthTranscriptNumber
hi def link pthTranscriptWord60_0 pthTranscriptOption
hi def link pthTranscriptWord11_78 pthTranscriptCallAttributes
hi def link pthTranscriptWord61_0 pthTranscriptNumber
hi def link pthTranscriptWord62_0 pthTranscriptOption
hi def link pthTranscriptWord62_1 pthTranscriptOption
hi def link pthTranscriptWord11_79 pthTranscriptCallAttributes
hi def link pthTranscriptWord11_80 pthTranscriptCallAttributes
hi def link pthTranscriptWord11_81 pthTranscriptCallAttributes
hi def link pthTranscriptCallLibrary Function
hi def link pthTranscriptWord11_82 pthTranscriptCallLibrary
hi def link pthTranscriptWord63_0 pthTranscriptOption
hi def link pthTranscriptWord63_1 pthTranscriptOption
hi def link pthTranscriptWord11_83 pthTranscriptCallLibrary
hi def link pthTranscriptThread11 pthTranscriptThread
hi def link pthTranscriptWord64_0 pthTranscriptThread
hi def link pthTranscriptWake PreProc
hi def link pthTranscriptWord65_0 pthTranscriptWake
hi def link pthTranscriptWake64 pthTranscriptWake
hi def link pthTranscriptWord66_0 pthTranscriptWake
hi def link pthTranscriptWake66 pthTranscriptWake
hi def link pthTranscriptEnding Title
hi def link pthTranscriptWord67_0 pthTranscriptEnding
hi def link pthTranscriptEnding67 pthTranscriptEnding
hi def link pthTranscriptEnding12 pthTranscriptEnding
hi def link pthTranscriptLeft pthTranscriptThread
hi def link pthTranscriptWord68_0 pthTranscriptEnding
hi def link pthTranscriptWord69_0 pthTranscriptNumber
hi def link pthTranscriptWord70_0 pthTranscriptEnding
hi def link pthTranscriptWord71_0 pthTranscriptNumber
hi def link pthTranscriptWord72_0 pthTranscriptEnding
hi def link pthTranscriptWord73_0 pthTranscriptNumber
hi def link pthTranscriptWord74_0 pthTranscriptEnding
hi def link pthTranscriptEnding68 pthTranscriptEnding

let b:current_syntax = "pthtranscript"
