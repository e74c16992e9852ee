/* Lua or LuaJIT, called from C by the functions that both have: turns.h says what it does. Names are globals, and so is the
 * host's function `twice`. */
#include "turns.h"
#ifdef __cplusplus
extern "C" {
#endif
#include <lauxlib.h>
#include <lua.h>
#include <lualib.h>
#ifdef __cplusplus
}
#endif

static lua_State *lua;

static int twice_of(lua_State *state)
{
    lua_pushinteger(state, (lua_Integer)twice((int64_t)luaL_checkinteger(state, 1)));
    return 1;
}

static void push(const value *it)
{
    switch (it->kind) {
    case BOOL: lua_pushboolean(lua, (int)it->number); break;
    case INTEGER: lua_pushinteger(lua, (lua_Integer)it->number); break;
    case STRING: lua_pushlstring(lua, it->text, it->count); break;
    case LIST:
        lua_createtable(lua, (int)it->count, 0);
        for (size_t i = 0; i < it->count; i++) {
            push(it->items + i);
            lua_rawseti(lua, -2, (int)i + 1);
        }
        break;
    case MAP:
        lua_createtable(lua, 0, (int)it->count);
        for (size_t i = 0; i < it->count; i++) {
            push(it->items + i);
            lua_setfield(lua, -2, it->keys[i]);
        }
        break;
    default: lua_pushnil(lua);
    }
}

static void set_names(void)
{
    for (size_t i = 0; i < name_count; i++) {
        push(&names[i].it);
        lua_setglobal(lua, names[i].name);
    }
}

static void load(const char *code)
{
    if (luaL_loadstring(lua, code)) stop(lua_tostring(lua, -1));
}

/* The chunk is kept as the first value on the stack. */
static void prepare(const char *part, const char *code)
{
    (void)part;
    lua = luaL_newstate();
    luaL_openlibs(lua);
    lua_pushcfunction(lua, twice_of);
    lua_setglobal(lua, "twice");
    set_names();
    load(code);
}

static void compile_once(const char *code)
{
    load(code);
    lua_pop(lua, 1);
}

static void call(void)
{
    lua_pushvalue(lua, 1);
    if (lua_pcall(lua, 0, 1, 0)) stop(lua_tostring(lua, -1));
}

static void run_once(void)
{
    call();
    lua_pop(lua, 1);
}

static void print(void)
{
    if (lua_istable(lua, -1)) {
        for (int i = 1;; i++) {
            lua_rawgeti(lua, -1, i);
            if (lua_isnil(lua, -1)) break;
            print();
            lua_pop(lua, 1);
        }
        lua_pop(lua, 1);
    } else if (lua_isboolean(lua, -1)) {
        printf("%s ", lua_toboolean(lua, -1) ? "true" : "false");
    } else {
        printf("%s ", lua_tostring(lua, -1));
    }
}

static void show(void)
{
    call();
    print();
    lua_close(lua);
}
