%token NUM
%%
s : s '+' NUM | NUM ;
