" Highlighting for configurations (.cfg) and task bodies (.src) of fmp.

if exists("b:current_syntax")
  finish
endif

syntax case match
syntax iskeyword @,48-57,_

syntax keyword fmpApi CRE_TSK CRE_SEM CRE_FLG CRE_DTQ CRE_MBX CRE_MSG CRE_SHR CRE_SPN CRE_CYC DEF_INH
syntax keyword fmpCall act_tsk can_act ext_tsk ter_tsk chg_pri get_pri mact_tsk mig_tsk slp_tsk tslp_tsk wup_tsk
syntax keyword fmpCall can_wup rel_wai sus_tsk rsm_tsk dly_tsk rot_rdq get_tid mrot_rdq sig_sem wai_sem pol_sem
syntax keyword fmpCall twai_sem set_flg clr_flg wai_flg pol_flg twai_flg snd_dtq psnd_dtq tsnd_dtq fsnd_dtq
syntax keyword fmpCall rcv_dtq prcv_dtq trcv_dtq snd_mbx rcv_mbx prcv_mbx trcv_mbx put ld_shr st_shr sta_cyc
syntax keyword fmpCall stp_cyc loc_cpu unl_cpu dis_dsp ena_dsp loc_spn try_spn unl_spn iact_tsk iwup_tsk
syntax keyword fmpCall irel_wai isig_sem iset_flg ipsnd_dtq ifsnd_dtq irot_rdq
syntax keyword fmpCode E_OK E_SYS E_NOSPT E_RSATR E_PAR E_ID E_CTX E_ILUSE E_OBJ E_QOVR E_RLWAI E_TMOUT
syntax keyword fmpConstant TA_NULL TWF_ANDW TA_HLNG TWF_ORW TA_TFIFO TMO_POL TA_TPRI TMO_FEVR TA_MFIFO TSK_SELF
syntax keyword fmpConstant TA_MPRI TPRI_INI TA_ACT TPRI_SELF TA_WSGL TA_WMUL TA_CLR TA_STA
syntax keyword fmpControl if else while break continue return
syntax keyword fmpType task handler var
syntax keyword fmpStructure NUM_PRC CLASS
syntax keyword fmpNull NULL
syntax keyword fmpExinf exinf

" What begins with a digit and is no number, as 012, is a fault.
syntax match fmpBadNumber "\<\d\w*\>"
syntax match fmpNumber "\<\%(0x\x\{1,8}\|0\|[1-9]\d*\)\>"
syntax match fmpOperator "||\|&&\|[=!<>]=\|[-+*/%|&^~!<>=]"
" Another name before a parenthesis is no service call.
syntax match fmpBadCall "\<\h\w*\ze\s*("
syntax match fmpBody "\%(\<\%(task\|handler\)\s\+\)\@<=\h\w*"
syntax match fmpObject "\%(\<CRE_\%(TSK\|SEM\|FLG\|DTQ\|MBX\|MSG\|SHR\|SPN\|CYC\)\s*(\s*\)\@<=\h\w*"
syntax match fmpClass "\%(\<CLASS\s*(\s*\)\@<=\h\w*"
syntax match fmpComment "//.*$"
syntax region fmpComment start="/\*" end="\*/"

highlight default link fmpApi Macro
highlight default link fmpCall Function
highlight default link fmpCode Constant
highlight default link fmpConstant Constant
highlight default link fmpControl Statement
highlight default link fmpType Type
highlight default link fmpStructure Structure
highlight default link fmpNull Constant
highlight default link fmpExinf Special
highlight default link fmpNumber Number
highlight default link fmpBadNumber Error
highlight default link fmpBadCall Error
highlight default link fmpOperator Operator
highlight default link fmpBody Identifier
highlight default link fmpObject Identifier
highlight default link fmpClass Identifier
highlight default link fmpComment Comment

let b:current_syntax = "fmp"
