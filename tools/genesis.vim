" Colours for schemas, equations and scripts of genesis, in Vim. Copy it to ~/.vim/syntax/genesis.vim, and
" put into ~/.vimrc:
"   autocmd BufRead,BufNewFile *.schema,*.equation,*.script setfiletype genesis
if exists("b:current_syntax")
  finish
endif

syntax match   genesisComment "#.*$"
syntax region  genesisText    start=+"+ skip=+""+ end=+"+ oneline
syntax match   genesisNumber  "\<-\=\d\+\>"
syntax match   genesisSession "^\s*[1-8]\ze\%(\s\|$\)"
syntax keyword genesisItem    file link
syntax keyword genesisKind    int text
syntax keyword genesisLeaf    heap hash isam bplus
syntax keyword genesisLayer   actual encode segment transpose partition divide index pack rle
syntax keyword genesisLinkset array ring inverted
syntax keyword genesisCommand begin commit abort insert get update delete find connect disconnect
syntax keyword genesisCommand members owner path reorganize
syntax keyword genesisClause  where and of order desc down up

highlight default link genesisComment Comment
highlight default link genesisText    String
highlight default link genesisNumber  Number
highlight default link genesisSession Label
highlight default link genesisItem    Structure
highlight default link genesisKind    Type
highlight default link genesisLeaf    Function
highlight default link genesisLayer   Function
highlight default link genesisLinkset Function
highlight default link genesisCommand Statement
highlight default link genesisClause  Keyword

let b:current_syntax = "genesis"
