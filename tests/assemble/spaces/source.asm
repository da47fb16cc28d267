
   
  L  :  JMP  (  L  +  1  )  
MOV   A,[  R3R2 ]
M:CALL(M)
