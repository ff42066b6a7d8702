" What a user of ALE sees of README's lines. The configuration is README's; TEXT is the file, REPORT gets a line a check.
set nomore hidden encoding=utf-8 shortmess=aoOtTIcF completeopt=menuone,noinsert
let s:failed = 0
let s:shown = ''
let s:menu = []
let s:title = ''
let s:offered = ''

" What ALE asks a user and shows one is asked of and shown to this script.
call ale#util#FindItemAtCursor(bufnr(''))
function! ale#util#Input(message, value, ...) abort
    let s:offered = a:message
    for l:line in split(a:message, "\n")
        if l:line is# matchstr(l:line, '^\d\+') . ') ' . s:title
            return matchstr(l:line, '^\d\+')
        endif
    endfor
    return ''
endfunction
function! ale#util#ShowMessage(string, ...) abort
    let s:shown = a:string
endfunction

function! s:Check(name, holds, got) abort
    let s:failed += !a:holds
    call writefile([a:holds ? 'ok ' . a:name : 'FAIL ' . a:name . ': ' . string(a:got)], $REPORT, 'a')
endfunction

" Waits until this holds, at most 10 seconds.
function! s:Wait(Holds) abort
    for l:try in range(400)
        if a:Holds()
            return
        endif
        sleep 25m
    endfor
endfunction

function! s:Faults() abort
    return sort(map(copy(get(get(g:ale_buffer_info, bufnr(''), {}), 'loclist', [])), 'v:val.lnum . " " . v:val.type . " " . v:val.text'))
endfunction

function! s:Menu() abort
    let s:menu = map(complete_info(['items']).items, 'v:val.word')
    return ''
endfunction

" Takes the proposed change of this title, at a place.
function! s:Act(line, column, title, changed) abort
    call cursor(a:line, a:column)
    let s:title = a:title
    ALECodeAction
    call s:Wait({-> getline(a:line) is# a:changed})
    call s:Check(a:title, getline(a:line) is# a:changed, [getline(a:line), s:offered])
endfunction

function! s:Session() abort
    execute 'edit' $TEXT
    setlocal omnifunc=ale#completion#OmniFunc
    call s:Wait({-> len(s:Faults()) == 4})
    call s:Check('diagnostics', s:Faults() == ['2 E This has type string but type int is wanted', '3 E Unbound value fo',
    \   '4 W Not every value is matched: Some _', '5 E 1 part is missing here'], s:Faults())

    call cursor(1, 6)
    ALEHover
    call s:Wait({-> s:shown isnot# ''})
    call s:Check('hover', stridx(s:shown, "('a -> 'a) -> 'a -> 'a") >= 0, s:shown)

    call cursor(2, 10)
    ALEGoToDefinition
    call s:Wait({-> getpos('.')[1:2] == [1, 5]})
    call s:Check('definition', getpos('.')[1:2] == [1, 5], getpos('.'))

    call cursor(3, 15)
    call feedkeys("A\<C-x>\<C-o>\<C-r>=Menu()\<CR>\<Esc>", 'tx')
    call s:Check('completion', s:menu == ['fold_left', 'fold_right', 'for_all'], s:menu)

    call s:Act(4, 20, 'Case analysis', 'let f opt = match (match opt with | None -> _ | Some _ -> _) with None -> 0')
    call s:Act(5, 11, 'Insert 0', 'let k = n +0')

    silent %delete _
    call setline(1, 'let s = "a" ^ "b"')
    call ale#Queue(0)
    call s:Wait({-> s:Faults() == []})
    call s:Check('no diagnostics where nothing is wrong', s:Faults() == [], s:Faults())
    let v:errmsg = ''
    silent write
    ALEStopAllLSPs
    sleep 500m
    call s:Check('no complaint', v:errmsg is# '', v:errmsg)
endfunction
function! Menu() abort
    return s:Menu()
endfunction

function! s:Run() abort
    try
        call s:Session()
    catch
        call s:Check('script', 0, v:exception . ' ' . v:throwpoint)
    endtry
    execute s:failed ? 'cquit 1' : 'qall!'
endfunction
autocmd VimEnter * ++nested call s:Run()
