STROKES:   ORG 0
STATE:     ORG 1
KEPT:      ORG 2
DIGIT:     ORG 0E0H
DOSE:      ORG 5
PATIENCE:  ORG 100H-64
STOPPED:   ORG 0
RUNNING:   ORG 1
TRIPPED:   ORG 8
ALARM:     ORG 3

RESET:     ORG 0
           JMP MAIN
TIMEUP:    ORG 4
           JMP NOSTROKE
EDGE:      ORG 8
           JMP STROKE

MAIN:      ORG 10H
           MOV R1R0,STATE
           MOV A,STOPPED
           MOV [R1R0],A
           OUT PA,A
           MOV R1R0,STROKES
           MOV [R1R0],A
           EI
WAIT:      CALL SHOW
           IN A,PM
           JA0 WAIT
BUTTON:    MOV R1R0,STROKES
           MOV A,0
           MOV [R1R0],A
           TIMER PATIENCE
           TIMER ON
           SOUND OFF
           MOV R1R0,STATE
           MOV A,RUNNING
           MOV [R1R0],A
           OUT PA,A
           JMP WAIT

SHOW:      ORG 100H
           MOV R1R0,STROKES
           MOV A,[R1R0]
           MOV R4,0
           MOV R1R0,DIGIT+1
           READF MR0A
           DEC R0
           MOV [R1R0],A
           RET

STROKE:    ORG 180H
           MOV R3R2,KEPT
           MOV [R3R2],A
           MOV R3R2,STATE
           MOV A,[R3R2]
           JA0 COUNT
           JMP BACK
COUNT:     MOV R3R2,STROKES
           INC [R3R2]
           MOV A,[R3R2]
           SUB A,DOSE
           JZ A,FULL
           TIMER PATIENCE
           JMP BACK
FULL:      TIMER OFF
           MOV R3R2,STATE
           MOV A,STOPPED
           JMP SWITCH

NOSTROKE:  ORG 1C0H
           MOV R3R2,KEPT
           MOV [R3R2],A
           MOV R3R2,STATE
           MOV A,[R3R2]
           JA0 TRIP
           JMP BACK
TRIP:      TIMER OFF
           SOUND LOOP
           SOUND ALARM
           MOV A,TRIPPED
SWITCH:    MOV [R3R2],A
           OUT PA,A
BACK:      MOV R3R2,KEPT
           MOV A,[R3R2]
           RETI

SEGMENTS:  ORG 0F00H
SHOWS0:    DEC A
           ORG SHOWS0+10H
SHOWS1:    MOV A,[R3R2]
           ORG SHOWS1+10H
SHOWS2:    MOV R1R0,0BH
           ORG SHOWS2+10H
SHOWS3:    READF MR0A
           ORG SHOWS3+10H
SHOWS4:    MOV R3R2,6
           ORG SHOWS4+10H
SHOWS5:    MOV R3R2,0DH
           ORG SHOWS5+10H
SHOWS6:    MOV A,0DH
           ORG SHOWS6+10H
SHOWS7:    MOV [R3R2],A
           ORG SHOWS7+10H
SHOWS8:    MOV A,0FH
           ORG SHOWS8+10H
SHOWS9:    MOV R3R2,0FH
