pos MARK NAME MARK (GOTO NAME )?MARK NAME MARK # narrowing; 3.3.4; refuses a label that has the name of another one
