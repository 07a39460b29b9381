// `inputs FOLDER`: writes each message that is measured to a file of its name.
#include "messages.h"
#include <stdio.h>
#include <stdlib.h>

static uint8_t bytes[MESSAGE_MOST];

static void save(const char *folder, const char *name, size_t length) {
    char path[4096];
    snprintf(path, sizeof path, "%s/%s.bin", folder, name);
    FILE *file = fopen(path, "wb");
    if (file == NULL || fwrite(bytes, 1, length, file) != length || fclose(file) != 0) {
        perror(path);
        exit(1);
    }
}

// 64 bytes each: letters, characters of all sizes, and those with the last one cut off.
#define LETTERS "gateway-01.example.net;relay4.core.example.net;1876543210;523;ab"
#define TEN "a\xC3\xA9\xE2\x82\xAC\xF0\x9F\x98\x80"
#define SIXTY TEN TEN TEN TEN TEN TEN
#define MIXED SIXTY "abcd"
#define CUT_OFF SIXTY "abc\xE2"

// 50 bytes of ASCII, 123 bytes of characters of 3 bytes, and some 500 bytes in which all sizes occur as they do in prose.
#define ASCII "The credit is used up: please try again at 09:00. "
#define THREE "お客様の認証に失敗しました。しばらくしてから、もう一度、最初からお試しくださいね。"
#define PROSE \
    "Größe überschritten, bitte später erneut versuchen. Accès refusé : l’abonné n’a plus de crédit. " \
    "Ошибка проверки подлинности, повторите позже. Η σύνδεση απορρίφθηκε. " \
    "認証に失敗しました。余额不足，请充值。प्रमाणीकरण विफल। " \
    "Brak środków na koncie 😀. Límite alcanzado, intente mañana 🙂. " \
    "This session ends now, please call 0800 123 456 🙏 Yetersiz bakiye, lütfen yükleyin. "

int main(int count, char **words) {
    if (count != 2) {
        fprintf(stderr, "usage: inputs FOLDER\n");
        return 2;
    }
    save(words[1], "empty", message_empty(bytes));
    save(words[1], "typical", message_typical(bytes));
    save(words[1], "session_first", message_session(bytes, 0));
    save(words[1], "session_last", message_session(bytes, 19));
    save(words[1], "letters", message_texts(bytes, LETTERS, sizeof LETTERS - 1));
    save(words[1], "mixed", message_texts(bytes, MIXED, sizeof MIXED - 1));
    save(words[1], "cut_off", message_texts(bytes, CUT_OFF, sizeof CUT_OFF - 1));
    save(words[1], "text_ascii", message_text(bytes, ASCII, sizeof ASCII - 1, 10));
    save(words[1], "text_three", message_text(bytes, THREE, sizeof THREE - 1, 4));
    save(words[1], "text_prose", message_text(bytes, PROSE, sizeof PROSE - 1, 1));
    save(words[1], "text_64k", message_text(bytes, LETTERS, sizeof LETTERS - 1, 1000));
    save(words[1], "numbers", message_numbers(bytes, 2000));
    save(words[1], "vendors", message_vendors(bytes, 1000));
    save(words[1], "small64k", message_small(bytes, 65536));
    save(words[1], "nested30", message_nested(bytes, 30));
    save(words[1], "small16m", message_small(bytes, MESSAGE_MOST));
    save(words[1], "extremal16m", message_extremal(bytes, MESSAGE_MOST));
    return 0;
}
