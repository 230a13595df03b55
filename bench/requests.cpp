// A host on AngelScript's engine, as small as one may be. It takes the requests `load` and `call` of ashd as lines, and
// replies as ashd does: each reply is written before the next request is read. It stores nothing.
#define AS_USE_NAMESPACE
#include <angelscript.h>
#include <angelscript/scriptarray.h>
#include <cstdio>
#include <cstdlib>
#include <cstring>
#include <string>

using namespace AngelScript;

namespace {

void print_message(const asSMessageInfo *message, void *) {
    std::fprintf(stderr, "%d:%d %s\n", message->row, message->col, message->message);
}

// The words of a line, which are ended in place.
int split(char *line, char **words, int most) {
    int count = 0;
    for (char *word = std::strtok(line, " \n"); word && count < most; word = std::strtok(nullptr, " \n")) {
        words[count++] = word;
    }
    return count;
}

bool load(asIScriptEngine *engine, const char *name, size_t length) {
    std::string source(length + 1, '\0');
    if (std::fread(source.data(), 1, length + 1, stdin) != length + 1) return false;
    asIScriptModule *module = engine->GetModule(name, asGM_ALWAYS_CREATE);
    return module->AddScriptSection(name, source.data(), length) >= 0 && module->Build() >= 0;
}

bool call(asIScriptEngine *engine, asIScriptContext *context, char **words, int count, int *value) {
    asIScriptModule *module = engine->GetModule(words[1]);
    asIScriptFunction *function = module ? module->GetFunctionByName(words[2]) : nullptr;
    if (!function || context->Prepare(function) < 0) return false;
    for (int word = 3; word < count; word++) context->SetArgDWord(word - 3, std::atoi(words[word]));
    if (context->Execute() != asEXECUTION_FINISHED) return false;
    *value = context->GetReturnDWord();
    return true;
}

}

int main() {
    asIScriptEngine *engine = asCreateScriptEngine();
    if (!engine) return 1;
    engine->SetMessageCallback(asFUNCTION(print_message), nullptr, asCALL_CDECL);
    RegisterScriptArray(engine, false);
    asIScriptContext *context = engine->CreateContext();
    char line[4098], *words[8];
    unsigned long long answered = 0;
    while (std::fgets(line, sizeof line, stdin)) {
        int count = split(line, words, 8), value = 0;
        if (count == 3 && !std::strcmp(words[0], "load") && load(engine, words[1], std::atoi(words[2]))) {
            std::printf("ok seq %llu\n", ++answered);
        } else if (count >= 3 && !std::strcmp(words[0], "call") && call(engine, context, words, count, &value)) {
            std::printf("ok %d seq %llu\n", value, ++answered);
        } else {
            std::printf("refused\n");
        }
        std::fflush(stdout);
    }
    context->Release();
    engine->ShutDownAndRelease();
}
