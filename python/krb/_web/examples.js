// Examples to click: octets of clients, KDCs and services of realms that were made for tests, as tests/*.rows have them. Their keys are of no use to anybody.
"use strict";

const EXAMPLES = [
    {
        title: "A token, with the service's keytab",
        text: "Authorization: Negotiate " +
            "YIICpwYJKoZIhvcSAQICAQBuggKWMIICkqADAgEFoQMCAQ6iBwMFACAAAACjggG8YYIBuDCCAbSgAwIBBaELGwlQRUVSLlRFU1SiHzAdoAMCAQOhFjAUGwNlMTcbDXdlYi5wZWVyLnRl" +
            "c3SjggF9MIIBeaADAgERoQMCAQGiggFrBIIBZ2dzjpoQiao7GtZb+hr35ToIDJlW9qc4oNSGhKFyS6JbBTHwsa2ivMnWOsbOU5ExT7DYS0wmHtK43RQK8zM/NBcrhKJdstOyPuSU5810" +
            "guS2papbEMqT2RAohe07mxPUWu0quwstSvGJPHp23OclyBPOuCLy3yiCDV5SMjqq4wMRGqBRNm/nk2z2DHbEoT/oOIWL9fix6LVTv/qG/AzhUiqjy5d9WJCO+zBn4VWzANO9ZhAsYidi" +
            "evoWkQAzjhzq91DJdfukq3x4GA776c/ApvsQrdXeJ2hf5nwbyq1z3MjdsyIWTxMjU+z7kP0UArWuYcv/XNvLz1p/fljgA0vCdchDMD0MpDW4lk07sXBFJWxQFRjjTJYHAu54xIsbWxPj" +
            "HKcVwqGJUFtZY0h6+Irr5GMl5fp1srcScMaKEkU83zzxR4/oeh7xQ5++jIejyeeWuCNQmYgtEhxsiy/C7UTWsMMCNnjWyRCKpIG8MIG5oAMCARGigbEEga500YW3LyJ4/urbM6YMconB" +
            "VtN28blilbffbJm8aNBeJ7jzK81127gkiSsaGGu+nde9Js6Tjpx5ZVhy7Wl8Mm4Ph8x3brZsqyRyqPCmavkTQ/W1FXeD45czuL/z3tpPkIULHLes5y7MpIceo/8jKuNop+4jEy/qIJV5" +
            "JDOoBGL2T6dFk1enzvgDUoVTo3fYfqHMRfjWHbY2vW1hXYMyGOhkwJInGHqMDU9cAF7JYJI=",
        keytab: "BQIAAAA+AAIACVBFRVIuVEVTVAADZTE3AA13ZWIucGVlci50ZXN0AAAAAQAAAAABABEAEDp/0mdYJdI/rEXaOh5bJB8=",
    },
    {
        title: "A reply of a KDC",
        text: "a4IDtTCCA7GgAwIBBaEDAgELoj8wPTA7oQMCAROiNAQyMDAwLqADAgERoScbJUhFTEQuVEVTVHVzZXItYWVzMTI4LWN0cy1obWFjLXNoYTEtOTajCxsJSEVMRC5URVNUpCkwJ6ADAgEB" +
            "oSAwHhscdXNlci1hZXMxMjgtY3RzLWhtYWMtc2hhMS05NqWCAg5hggIKMIICBqADAgEFoQsbCUhFTEQuVEVTVKIeMBygAwIBAqEVMBMbBmtyYnRndBsJSEVMRC5URVNUo4IB0DCCAcyg" +
            "AwIBFKEDAgEBooIBvgSCAbqah1szqe1xhTdxfCCyJ8QmJpIQphoPW5IRqKu7MON/1ZReU6sX2giYZc8b5XXo29Ex6GJs7hBXyXX5JHVc4ok42Ol1hA07GgHasexHitIY46rf0xtZmglR" +
            "LQFsE+DrAwDBuP9hZVN+N+MTDqProZ/j0My/UlKoRZp62GGXBO+cewyK9JgAlR5zDWqBfh3ua3kDlPV1bh/G+vbcwemtF1HM/rg7C9xSB1uLZEitEZMoOHVzLC1gxXX6vom/bxV+WMQ5" +
            "9/62/FpXmZ0uWchT8ZuA/wZ3KAv1646Y/tiluRE4WgngcJ4AVsw3/cxSoNmR2mQniV/Rm5BAdotoJTqWtSTx2brzZkbrTEEDVVQtYsWqqYaR7MDHAHeKFU2cScT8i0yS2cCgN9Z6nsbr" +
            "N84cmAR773zFSTrQMy9pwt3tThb4nJFVoJDPinmAtmYCZw3GLTT5/oQJ/Ej3+8mBa+asmcQ0Yh6dMGBgowEayPs6beEtbUZGrhwZLyYU/cNrgZQ0WL0Em7Ww2rggOC77klohzLUxXEg0" +
            "tFAihvrf7y0OZ2eG1xe9FOxjrIsnNrPQOoJ3AbKhwfNKSU1THKtnpoIBGDCCARSgAwIBEaKCAQsEggEH1JB3mfdTeiCOC0OOQfj9W+yazHi5S/1LbVg4jSrFsIY9mgCqmjx2iPietTP/" +
            "8A1FCF6YreaPNbtZPB9Jy0RUuleuAq9rofrFUUzpJVrMK5EJr1ckMnF4Zrt0WuU/0KiNr8L+IoELf8pVEjYydDMJeyl2+FEcQpehB0hx5SffufAPt2y0MYTeBotLXQhoEXKSjtWhIaWY" +
            "kq9yVlugbCWCR8cWC4VszIWJGmWn5uR6m2ThKD1SMGx94aDaoVFGH8/RkbICvnexyX08Vb5wEDpR7MyeZruh4hPbz/Lkdj5B+EICD/+WNqDfnXHpYepjUXTE8IHT1vf8TCnCHyeHCsDJ" +
            "pRBwm9KQxYM=",
    },
    {
        title: "An error of a KDC",
        text: "foG4MIG1oAMCAQWhAwIBHqQRGA8yMDI2MTEyMjA2NDkyNFqlBQIDBf0+pgMCASanCxsJSEVMRC5URVNUqCkwJ6ADAgEBoSAwHhscdXNlci1hZXMxMjgtY3RzLWhtYWMtc2hhMS05NqkL" +
            "GwlIRUxELlRFU1SqNjA0oAMCAQGhLTArGwNzdmMbJGFlczI1Ni1jdHMtaG1hYy1zaGEzODQtMTkyLmhlbGQudGVzdKsNGwtQUk9DRVNTX1RHUw==",
    },
    {
        title: "A keytab",
        text: "BQIAAABXAAIAC0xBQi5FWEFNUExFAARIVFRQAA93ZWIubGFiLmV4YW1wbGUAAAABawc1WgIAEgAgiKqlufJ5asbZH/bGZmBoOiu3FhDyzg+RfWhlo6xEUY4AAAACAAAARwACAAtMQUIu" +
            "RVhBTVBMRQAESFRUUAAPd2ViLmxhYi5leGFtcGxlAAAAAWsHNVoCABEAEL0s0UYGrLc9QAP+j2gMHHkAAAACAAAAVwACAAtMQUIuRVhBTVBMRQAESFRUUAAPd2ViLmxhYi5leGFtcGxl" +
            "AAAAAWsHNVoDABIAIFQx+UN/ZjDn2lE0kZXrhK/RZKHbcD8k8rwS3RPOiWaDAAAAAwAAAEcAAgALTEFCLkVYQU1QTEUABEhUVFAAD3dlYi5sYWIuZXhhbXBsZQAAAAFrBzVaAwARABBQ" +
            "6iX16hC9+1aZ2AqamId5AAAAAw==",
    },
    {
        title: "A cache of tickets",
        text: "BQQADAABAAgAAAAAAAAAAAAAAAEAAAABAAAAC0xBQi5FWEFNUExFAAAABWFsaWNlAAAAAQAAAAEAAAALTEFCLkVYQU1QTEUAAAAFYWxpY2UAAAABAAAAAwAAAAxYLUNBQ0hFQ09ORjoA" +
            "AAAVa3JiNV9jY2FjaGVfY29uZl9kYXRhAAAACmZhc3RfYXZhaWwAAAAea3JidGd0L0xBQi5FWEFNUExFQExBQi5FWEFNUExFAAAAAAAAAAAAAAAAAAAAAAAAAAAAAAAAAAAAAAAAAAAA" +
            "AAAAAAADeWVzAAAAAAAAAAEAAAABAAAAC0xBQi5FWEFNUExFAAAABWFsaWNlAAAAAgAAAAIAAAALTEFCLkVYQU1QTEUAAAAGa3JidGd0AAAAC0xBQi5FWEFNUExFABIAAAAgDdZxIcis" +
            "GoBGaoNNi0QrNRcXP262DV+9E1MxePVLi9JrBzVcawc1XGsIhtxrCdhcAEDBAAAAAAAAAAAAAAAAAaxhggGoMIIBpKADAgEFoQ0bC0xBQi5FWEFNUExFoiAwHqADAgECoRcwFRsGa3Ji" +
            "dGd0GwtMQUIuRVhBTVBMRaOCAWowggFmoAMCARKhAwIBAaKCAVgEggFUPJqxOeCDtAFN2sL0UKeeeAbMyg32rhRmnWenzEYakYHGvGXztEPud9cKKpGxvRomgyWE6tkJZ+uOiM7A3qWK" +
            "WH+9gzRgoiFanHEOXRd7EpTjyz03w/fUWYPK2cgtDKonFtdXTf1no4PaYr0l37G1fesZaudLRhkcTJmESq26mTmY7nvjnGte9+BMNr3u9OAYPoyc6sD7z07t7X74HL2viCOlADCzCM06" +
            "O64J/ppbW0FltwPD7Fw4Gs7u3fgdNdWPL7lNuwFo+VrTVCoawgDxvudWM/suYjktL4v2odbXSY3wNauGkzvR1U1igLBXpb6HK2CUA67epBp0sZe8YIUavH6I07PPhGdBQfyy4qQCeVXn" +
            "AUPlc/9nZ667XStXiRZSET8WbfHdk6CJAPDG/mKMS9+XDjGwuU+2f/Pxr+4EEuMHRdM38motzU0ICre0JVbTKeHFtgAAAAAAAAABAAAAAQAAAAtMQUIuRVhBTVBMRQAAAAVhbGljZQAA" +
            "AAEAAAACAAAAC0xBQi5FWEFNUExFAAAABEhUVFAAAAAPd2ViLmxhYi5leGFtcGxlABIAAAAgIsOfs7ikih2+N6yJPm0VbzpgoZfLqMzBl89G+DASCKNrBzVcawc1XGsIhtxrCdhcAECJ" +
            "AAAAAAAAAAAAAAAAAdNhggHPMIIBy6ADAgEFoQ0bC0xBQi5FWEFNUExFoiIwIKADAgEBoRkwFxsESFRUUBsPd2ViLmxhYi5leGFtcGxlo4IBjzCCAYugAwIBEqEDAgEDooIBfQSCAXns" +
            "SXvtQ1Gahg8nQPbDAlIwJGXqMwxAqyQ8RJEaaAWKZsX4IEEa0kg2rNpdqG1TvdEEiuNnhNqRxvL+iT55TNHlX5tIGlFf5rPQITAmP2/SvVx5HRZeZAssjR37YVGGk1XR01nhjtx0ZnKf" +
            "zC54Ux0YwQpeVDLXMenqGkddgI01Hb8nIT2l8sCE7Tbe5T8bvFV47KiPVDDnkJtxuRKgyzIh+O5Z1F5s5Rl+Lj+ssBEH6SHTkwR5gAFK7+W427n81Spun3j4reDfN5lx+SDQXRiHhdL2" +
            "0hzynWGzrnFTBYu454Ip1lzhcG5U0QTzMU1bSDD5BXB5UWHwSAH25VUIGWA50socnIrFA9BakVRV4/3Q+UkXckokSssiDIFI/i2W8xrnEDmHb75y6+kIpnxQiI5d9XgGcoFVujbNu/zg" +
            "svok2uiauJ0aPcLO8zkjGpqHOC9nWFeD+yFKMnUcnXXaZ4bSBxss4MWAZw5EIk43jnRRA3GZx2mxpHsOiAAAAAA=",
    },
];

for (const example of EXAMPLES) {
    const button = made("button", "", example.title);
    button.type = "button";
    button.addEventListener("click", () => {
        forget();
        get("input").value = example.text;
        if (example.keytab) {
            giveFiles("keytabs", [["example.keytab", fromBase64(example.keytab)]]);
            get("keys-box").open = true;
        }
        ask();
    });
    get("examples").append(button);
}
