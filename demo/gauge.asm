PRESSURE:  ORG 0
ASLEEP:    ORG 1
KEPT:      ORG 2
GLASS:     ORG 0E0H
ATZERO:    ORG 2
FILLED:    ORG 5
BLANK:     ORG 0
MINUS:     ORG 4
PLAIN:     ORG 0
POINTED:   ORG 8

RESET:     ORG 0
           JMP MAIN
TIMEUP:    ORG 4
           RETI
EDGE:      ORG 8
           JMP FALLS

MAIN:      ORG 10H
           MOV R1R0,PRESSURE
           MOV A,FILLED
           MOV [R1R0],A
           MOV R1R0,ASLEEP
           MOV A,0
           MOV [R1R0],A
           EI
WATCH:     CALL SHOW
           IN A,PM
           JA0 WATCH
BUTTON:    DI
           MOV R1R0,ASLEEP
           MOV A,1
           MOV [R1R0],A
           HALT
           EI
LETGO:     IN A,PM
           JA0 WATCH
           JMP LETGO

SHOW:      ORG 100H
           MOV R1R0,PRESSURE
           MOV A,[R1R0]
           SUB A,ATZERO
           JNC UNDER
           MOV R4,A
           MOV A,BLANK
           JMP SIGN
UNDER:     XOR A,0FH
           INC A
           MOV R4,A
           MOV A,MINUS
SIGN:      MOV R1R0,GLASS+1
           MOV [R1R0],A
           DEC R0
           MOV A,BLANK
           MOV [R1R0],A
BARS:      MOV A,R4
           CLC
           RRC A
           MOV R4,POINTED
           MOV R1R0,GLASS+3
           READF MR0A
           DEC R0
           MOV [R1R0],A
TENTHS:    MOV A,0
           JNC WHOLE
           MOV A,5
WHOLE:     MOV R4,PLAIN
           MOV R1R0,GLASS+5
           READF MR0A
           DEC R0
           MOV [R1R0],A
           MOV A,0
           MOV R1R0,GLASS+7
           READF MR0A
           DEC R0
           MOV [R1R0],A
           RET

FALLS:     ORG 180H
           MOV R3R2,KEPT
           MOV [R3R2],A
           MOV R3R2,ASLEEP
           MOV A,[R3R2]
           JNZ A,WAKES
           MOV R3R2,PRESSURE
           MOV A,[R3R2]
           JZ A,BACK
           DEC [R3R2]
           JMP BACK
WAKES:     MOV A,0
           MOV [R3R2],A
BACK:      MOV R3R2,KEPT
           MOV A,[R3R2]
           RETI

SEGMENTS:  ORG 0F00H
SHOWS0:    DEC A
           ORG SHOWS0+POINTED
POINT0:    JNZ A,0F00H
           ORG SHOWS0+10H
SHOWS1:    MOV A,[R3R2]
           ORG SHOWS1+POINTED
POINT1:    JA0 0E00H
           ORG SHOWS0+50H
SHOWS5:    MOV R3R2,0DH
