; gen 7 12 512
.page 0 0 rw
.page 0 1 rw
.page 0 2 rw
.page 0 3 rw
.page 0 4 rw
.page 0 5 rw
.page 0 6 rw
.page 0 7 rw
.page 0 8 rw
.page 0 9 rw
.page 0 10 rw
.page 0 11 rw
.page 0 12 rw
.page 0 13 rw
.page 0 14 rw
.page 0 15 rw
.page 0 16 rw
.page 0 17 rw
.page 0 18 rw
.page 0 19 rw
.page 0 20 rw
.page 0 21 rw
.page 0 22 rw
.page 0 23 rw
.page 0 24 rw
.page 0 25 rw
.page 0 26 rw
.page 0 27 rw
.page 0 28 rw
.page 0 29 rw
.page 0 30 rw
.page 0 31 rw
.page 0 32 rw
.page 0 33 rw
.page 0 34 rw
.page 0 35 rw
.page 0 36 rw
.page 0 37 rw
.page 0 38 rw
.page 0 39 rw
.page 0 40 rw
.page 0 41 rw
.page 0 42 rw
.page 0 43 rw
.page 0 44 rw
.page 0 45 rw
.page 0 46 rw
.page 0 47 rw
.page 0 48 rw
.page 0 49 rw
.page 0 50 rw
.page 0 51 rw
.page 0 52 rw
.page 0 53 rw
.page 0 54 rw
.page 0 55 rw
.page 0 56 rw
.page 0 57 rw
.page 0 58 rw
.page 0 59 rw
.page 0 60 rw
.page 0 61 rw
.page 0 62 rw
.page 0 63 rw
.page 0 64 rw
.page 0 65 rw
.page 0 66 rw
.page 0 67 rw
.page 0 68 rw
.page 0 69 rw
.page 0 70 rw
.page 0 71 rw
.page 0 72 rw
.page 0 73 rw
.page 0 74 rw
.page 0 75 rw
.page 0 76 rw
.page 0 77 rw
.page 0 78 rw
.page 0 79 rw
.page 0 80 rw
.page 0 81 rw
.page 0 82 rw
.page 0 83 rw
.page 0 84 rw
.page 0 85 rw
.page 0 86 rw
.page 0 87 rw
.page 0 88 rw
.page 0 89 rw
.page 0 90 rw
.page 0 91 rw
.page 0 92 rw
.page 0 93 rw
.page 0 94 rw
.page 0 95 rw
.page 0 96 rw
.page 0 97 rw
.page 0 98 rw
.page 0 99 rw
.page 0 100 rw
.page 0 101 rw
.page 0 102 rw
.page 0 103 rw
.page 0 104 rw
.page 0 105 rw
.page 0 106 rw
.page 0 107 rw
.page 0 108 rw
.page 0 109 rw
.page 0 110 rw
.page 0 111 rw
.page 0 112 rw
.page 0 113 rw
.page 0 114 rw
.page 0 115 rw
.page 0 116 rw
.page 0 117 rw
.page 0 118 rw
.page 0 119 rw
.page 0 120 rw
.page 0 121 rw
.page 0 122 rw
.page 0 123 rw
.page 0 124 rw
.page 0 125 rw
.page 0 126 rw
.page 0 127 rw
.page 0 128 rw
.page 0 129 rw
.page 0 130 rw
.page 0 131 rw
.page 0 132 rw
.page 0 133 rw
.page 0 134 rw
.page 0 135 rw
.page 0 136 rw
.page 0 137 rw
.page 0 138 rw
.page 0 139 rw
.page 0 140 rw
.page 0 141 rw
.page 0 142 rw
.page 0 143 rw
.page 0 144 rw
.page 0 145 rw
.page 0 146 rw
.page 0 147 rw
.page 0 148 rw
.page 0 149 rw
.page 0 150 rw
.page 0 151 rw
.page 0 152 rw
.page 0 153 rw
.page 0 154 rw
.page 0 155 rw
.page 0 156 rw
.page 0 157 rw
.page 0 158 rw
.page 0 159 rw
.page 0 160 rw
.page 0 161 rw
.page 0 162 rw
.page 0 163 rw
.page 0 164 rw
.page 0 165 rw
.page 0 166 rw
.page 0 167 rw
.page 0 168 rw
.page 0 169 rw
.page 0 170 rw
.page 0 171 rw
.page 0 172 rw
.page 0 173 rw
.page 0 174 rw
.page 0 175 rw
.page 0 176 rw
.page 0 177 rw
.page 0 178 rw
.page 0 179 rw
.page 0 180 rw
.page 0 181 rw
.page 0 182 rw
.page 0 183 rw
.page 0 184 rw
.page 0 185 rw
.page 0 186 rw
.page 0 187 rw
.page 0 188 rw
.page 0 189 rw
.page 0 190 rw
.page 0 191 rw
.page 0 192 rw
.page 0 193 rw
.page 0 194 rw
.page 0 195 rw
.page 0 196 rw
.page 0 197 rw
.page 0 198 rw
.page 0 199 rw
.page 0 200 rw
.page 0 201 rw
.page 0 202 rw
.page 0 203 rw
.page 0 204 rw
.page 0 205 rw
.page 0 206 rw
.page 0 207 rw
.page 0 208 rw
.page 0 209 rw
.page 0 210 rw
.page 0 211 rw
.page 0 212 rw
.page 0 213 rw
.page 0 214 rw
.page 0 215 rw
.page 0 216 rw
.page 0 217 rw
.page 0 218 rw
.page 0 219 rw
.page 0 220 rw
.page 0 221 rw
.page 0 222 rw
.page 0 223 rw
.page 0 224 rw
.page 0 225 rw
.page 0 226 rw
.page 0 227 rw
.page 0 228 rw
.page 0 229 rw
.page 0 230 rw
.page 0 231 rw
.page 0 232 rw
.page 0 233 rw
.page 0 234 rw
.page 0 235 rw
.page 0 236 rw
.page 0 237 rw
.page 0 238 rw
.page 0 239 rw
.page 0 240 rw
.page 0 241 rw
.page 0 242 rw
.page 0 243 rw
.page 0 244 rw
.page 0 245 rw
.page 0 246 rw
.page 0 247 rw
.page 0 248 rw
.page 0 249 rw
.page 0 250 rw
.page 0 251 rw
.page 0 252 rw
.page 0 253 rw
.page 0 254 rw
.page 0 255 rw
.page 0 256 rw
.page 0 257 rw
.page 0 258 rw
.page 0 259 rw
.page 0 260 rw
.page 0 261 rw
.page 0 262 rw
.page 0 263 rw
.page 0 264 rw
.page 0 265 rw
.page 0 266 rw
.page 0 267 rw
.page 0 268 rw
.page 0 269 rw
.page 0 270 rw
.page 0 271 rw
.page 0 272 rw
.page 0 273 rw
.page 0 274 rw
.page 0 275 rw
.page 0 276 rw
.page 0 277 rw
.page 0 278 rw
.page 0 279 rw
.page 0 280 rw
.page 0 281 rw
.page 0 282 rw
.page 0 283 rw
.page 0 284 rw
.page 0 285 rw
.page 0 286 rw
.page 0 287 rw
.page 0 288 rw
.page 0 289 rw
.page 0 290 rw
.page 0 291 rw
.page 0 292 rw
.page 0 293 rw
.page 0 294 rw
.page 0 295 rw
.page 0 296 rw
.page 0 297 rw
.page 0 298 rw
.page 0 299 rw
.page 0 300 rw
.page 0 301 rw
.page 0 302 rw
.page 0 303 rw
.page 0 304 rw
.page 0 305 rw
.page 0 306 rw
.page 0 307 rw
.page 0 308 rw
.page 0 309 rw
.page 0 310 rw
.page 0 311 rw
.page 0 312 rw
.page 0 313 rw
.page 0 314 rw
.page 0 315 rw
.page 0 316 rw
.page 0 317 rw
.page 0 318 rw
.page 0 319 rw
.page 0 320 rw
.page 0 321 rw
.page 0 322 rw
.page 0 323 rw
.page 0 324 rw
.page 0 325 rw
.page 0 326 rw
.page 0 327 rw
.page 0 328 rw
.page 0 329 rw
.page 0 330 rw
.page 0 331 rw
.page 0 332 rw
.page 0 333 rw
.page 0 334 rw
.page 0 335 rw
.page 0 336 rw
.page 0 337 rw
.page 0 338 rw
.page 0 339 rw
.page 0 340 rw
.page 0 341 rw
.page 0 342 rw
.page 0 343 rw
.page 0 344 rw
.page 0 345 rw
.page 0 346 rw
.page 0 347 rw
.page 0 348 rw
.page 0 349 rw
.page 0 350 rw
.page 0 351 rw
.page 0 352 rw
.page 0 353 rw
.page 0 354 rw
.page 0 355 rw
.page 0 356 rw
.page 0 357 rw
.page 0 358 rw
.page 0 359 rw
.page 0 360 rw
.page 0 361 rw
.page 0 362 rw
.page 0 363 rw
.page 0 364 rw
.page 0 365 rw
.page 0 366 rw
.page 0 367 rw
.page 0 368 rw
.page 0 369 rw
.page 0 370 rw
.page 0 371 rw
.page 0 372 rw
.page 0 373 rw
.page 0 374 rw
.page 0 375 rw
.page 0 376 rw
.page 0 377 rw
.page 0 378 rw
.page 0 379 rw
.page 0 380 rw
.page 0 381 rw
.page 0 382 rw
.page 0 383 rw
.page 0 384 rw
.page 0 385 rw
.page 0 386 rw
.page 0 387 rw
.page 0 388 rw
.page 0 389 rw
.page 0 390 rw
.page 0 391 rw
.page 0 392 rw
.page 0 393 rw
.page 0 394 rw
.page 0 395 rw
.page 0 396 rw
.page 0 397 rw
.page 0 398 rw
.page 0 399 rw
.page 0 400 rw
.page 0 401 rw
.page 0 402 rw
.page 0 403 rw
.page 0 404 rw
.page 0 405 rw
.page 0 406 rw
.page 0 407 rw
.page 0 408 rw
.page 0 409 rw
.page 0 410 rw
.page 0 411 rw
.page 0 412 rw
.page 0 413 rw
.page 0 414 rw
.page 0 415 rw
.page 0 416 rw
.page 0 417 rw
.page 0 418 rw
.page 0 419 rw
.page 0 420 rw
.page 0 421 rw
.page 0 422 rw
.page 0 423 rw
.page 0 424 rw
.page 0 425 rw
.page 0 426 rw
.page 0 427 rw
.page 0 428 rw
.page 0 429 rw
.page 0 430 rw
.page 0 431 rw
.page 0 432 rw
.page 0 433 rw
.page 0 434 rw
.page 0 435 rw
.page 0 436 rw
.page 0 437 rw
.page 0 438 rw
.page 0 439 rw
.page 0 440 rw
.page 0 441 rw
.page 0 442 rw
.page 0 443 rw
.page 0 444 rw
.page 0 445 rw
.page 0 446 rw
.page 0 447 rw
.page 0 448 rw
.page 0 449 rw
.page 0 450 rw
.page 0 451 rw
.page 0 452 rw
.page 0 453 rw
.page 0 454 rw
.page 0 455 rw
.page 0 456 rw
.page 0 457 rw
.page 0 458 rw
.page 0 459 rw
.page 0 460 rw
.page 0 461 rw
.page 0 462 rw
.page 0 463 rw
.page 0 464 rw
.page 0 465 rw
.page 0 466 rw
.page 0 467 rw
.page 0 468 rw
.page 0 469 rw
.page 0 470 rw
.page 0 471 rw
.page 0 472 rw
.page 0 473 rw
.page 0 474 rw
.page 0 475 rw
.page 0 476 rw
.page 0 477 rw
.page 0 478 rw
.page 0 479 rw
.page 0 480 rw
.page 0 481 rw
.page 0 482 rw
.page 0 483 rw
.page 0 484 rw
.page 0 485 rw
.page 0 486 rw
.page 0 487 rw
.page 0 488 rw
.page 0 489 rw
.page 0 490 rw
.page 0 491 rw
.page 0 492 rw
.page 0 493 rw
.page 0 494 rw
.page 0 495 rw
.page 0 496 rw
.page 0 497 rw
.page 0 498 rw
.page 0 499 rw
.page 0 500 rw
.page 0 501 rw
.page 0 502 rw
.page 0 503 rw
.page 0 504 rw
.page 0 505 rw
.page 0 506 rw
.page 0 507 rw
.page 0 508 rw
.page 0 509 rw
.page 0 510 rw
.page 0 511 rw
.board
li r2, 8
li r4, 0
li r7, 4096
li r8, 2
again:
li r1, 0
li r3, 512
first:
ld r5, 0(r1)
add r5, r5, r2
st r5, 0(r1)
add r4, r4, r5
add r1, r1, r7
addi r3, r3, -1
bne r3, r0, first
addi r8, r8, -1
bne r8, r0, again
show r4
halt
.board
li r2, 25
li r4, 0
li r7, 4096
li r8, 2
again:
li r1, 4
li r3, 512
first:
ld r5, 0(r1)
add r5, r5, r2
st r5, 0(r1)
add r4, r4, r5
add r1, r1, r7
addi r3, r3, -1
bne r3, r0, first
addi r8, r8, -1
bne r8, r0, again
show r4
halt
.board
li r2, 42
li r4, 0
li r7, 4096
li r8, 2
again:
li r1, 8
li r3, 512
first:
ld r5, 0(r1)
add r5, r5, r2
st r5, 0(r1)
add r4, r4, r5
add r1, r1, r7
addi r3, r3, -1
bne r3, r0, first
addi r8, r8, -1
bne r8, r0, again
show r4
halt
.board
li r2, 59
li r4, 0
li r7, 4096
li r8, 2
again:
li r1, 12
li r3, 512
first:
ld r5, 0(r1)
add r5, r5, r2
st r5, 0(r1)
add r4, r4, r5
add r1, r1, r7
addi r3, r3, -1
bne r3, r0, first
addi r8, r8, -1
bne r8, r0, again
show r4
halt
.board
li r2, 76
li r4, 0
li r7, 4096
li r8, 2
again:
li r1, 16
li r3, 512
first:
ld r5, 0(r1)
add r5, r5, r2
st r5, 0(r1)
add r4, r4, r5
add r1, r1, r7
addi r3, r3, -1
bne r3, r0, first
addi r8, r8, -1
bne r8, r0, again
show r4
halt
.board
li r2, 93
li r4, 0
li r7, 4096
li r8, 2
again:
li r1, 20
li r3, 512
first:
ld r5, 0(r1)
add r5, r5, r2
st r5, 0(r1)
add r4, r4, r5
add r1, r1, r7
addi r3, r3, -1
bne r3, r0, first
addi r8, r8, -1
bne r8, r0, again
show r4
halt
.board
li r2, 110
li r4, 0
li r7, 4096
li r8, 2
again:
li r1, 24
li r3, 512
first:
ld r5, 0(r1)
add r5, r5, r2
st r5, 0(r1)
add r4, r4, r5
add r1, r1, r7
addi r3, r3, -1
bne r3, r0, first
addi r8, r8, -1
bne r8, r0, again
show r4
halt
.board
li r2, 127
li r4, 0
li r7, 4096
li r8, 2
again:
li r1, 28
li r3, 512
first:
ld r5, 0(r1)
add r5, r5, r2
st r5, 0(r1)
add r4, r4, r5
add r1, r1, r7
addi r3, r3, -1
bne r3, r0, first
addi r8, r8, -1
bne r8, r0, again
show r4
halt
.board
li r2, 144
li r4, 0
li r7, 4096
li r8, 2
again:
li r1, 32
li r3, 512
first:
ld r5, 0(r1)
add r5, r5, r2
st r5, 0(r1)
add r4, r4, r5
add r1, r1, r7
addi r3, r3, -1
bne r3, r0, first
addi r8, r8, -1
bne r8, r0, again
show r4
halt
.board
li r2, 161
li r4, 0
li r7, 4096
li r8, 2
again:
li r1, 36
li r3, 512
first:
ld r5, 0(r1)
add r5, r5, r2
st r5, 0(r1)
add r4, r4, r5
add r1, r1, r7
addi r3, r3, -1
bne r3, r0, first
addi r8, r8, -1
bne r8, r0, again
show r4
halt
.board
li r2, 178
li r4, 0
li r7, 4096
li r8, 2
again:
li r1, 40
li r3, 512
first:
ld r5, 0(r1)
add r5, r5, r2
st r5, 0(r1)
add r4, r4, r5
add r1, r1, r7
addi r3, r3, -1
bne r3, r0, first
addi r8, r8, -1
bne r8, r0, again
show r4
halt
.board
li r2, 195
li r4, 0
li r7, 4096
li r8, 2
again:
li r1, 44
li r3, 512
first:
ld r5, 0(r1)
add r5, r5, r2
st r5, 0(r1)
add r4, r4, r5
add r1, r1, r7
addi r3, r3, -1
bne r3, r0, first
addi r8, r8, -1
bne r8, r0, again
show r4
halt
