" COMPASS for the Control Data 6000 series. Made by bench/editors of the program's tables of operations; what is changed here is lost.
if exists("b:current_syntax")
  finish
endif
syntax case match
syntax match compassComment /^\*.*/
syntax match compassComment /^,/
syntax match compassLocation /^[^*, ]\S*\|^ \S\+/ nextgroup=compassOperation,compassPseudo,compassInstruction,compassRemark skipwhite
syntax match compassBlank /^ \{2,}/ nextgroup=compassOperation,compassPseudo,compassInstruction,compassRemark
syntax match compassRemark /\%>29c\S.*/ contained
syntax match compassOperation /\%<30c\S\+/ contained nextgroup=compassOperand,compassRemark skipwhite
syntax match compassPseudo /\%<30c\%(PERIPH\|EJECT\|ENTRY\|IDENT\|SPACE\|TITLE\|BASE\|BSSZ\|DATA\|LIST\|ABS\|BSS\|CON\|DIS\|END\|EQU\|EXT\|LOC\|ORG\|USE\|VFD\|=\)\%( \|$\)\@=/ contained nextgroup=compassOperand,compassRemark skipwhite
syntax match compassInstruction /\%<30c\%(ACN\|ADC\|ADD\|ADI\|ADM\|ADN\|AJM\|AOD\|AOI\|AOM\|CRD\|CRM\|CWD\|CWM\|DCN\|EJM\|EXN\|FAN\|FJM\|FNC\|IAM\|IAN\|IJM\|LCN\|LDC\|LDD\|LDI\|LDM\|LDN\|LJM\|LMC\|LMD\|LMI\|LMM\|LMN\|LPC\|LPN\|MJN\|NJN\|OAM\|OAN\|PJN\|PSN\|RAD\|RAI\|RAM\|RJM\|RPN\|SBD\|SBI\|SBM\|SBN\|SCN\|SHN\|SOD\|SOI\|SOM\|STD\|STI\|STM\|UJN\|ZJN\|DF\|EQ\|GE\|GT\|ID\|IR\|JP\|LE\|LT\|MI\|NE\|NG\|NO\|NZ\|OR\|PL\|PS\|RJ\|ZR\|\%(AX\|BX\|CX\|DX\|FX\|IX\|LX\|MX\|NX\|PX\|RX\|SA\|SB\|SX\|UX\|ZX\)[0-7]\)\%( \|$\)\@=/ contained nextgroup=compassOperand,compassRemark skipwhite
syntax match compassOperand /\%<30c\S\+/ contained contains=compassNumber,compassText,compassRegister nextgroup=compassBehind
syntax match compassBehind / .*/ contained
syntax match compassNumber /\<\%(\%<73c[0-9]\)\+\%(\%<73c[BDO]\)\?\%(\%<73cS\%(\%<73c[0-9]\)\+\)\?\%(\>\|\%73c\)/ contained
syntax match compassText /\<\%(\%<73c[0-9]\)\+\%<73c[HALRC][^, ]*/ contained
syntax match compassRegister /\<[ABX]\%<73c[0-7]\%(\>\|\%73c\)/ contained
syntax match compassSequence /\%>72c.\+/ containedin=ALL
highlight default link compassComment Comment
highlight default link compassRemark Comment
highlight default link compassBehind Comment
highlight default link compassLocation Type
highlight default link compassPseudo PreProc
highlight default link compassInstruction Statement
highlight default link compassOperation Error
highlight default link compassNumber Constant
highlight default link compassText Special
highlight default link compassRegister Identifier
highlight default link compassSequence LineNr
let b:current_syntax = "compass"
