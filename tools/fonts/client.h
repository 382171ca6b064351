/* What FreeType's autofitter calls of client.c. AF_KHS tells the build: AF_KHS_NONE has FreeType's own routines, AF_KHS_CALLS the library's call by call, AF_KHS_ONE its one call behind building. A function that tells
   whether it did its step is 0 where the library was not asked or refused, and has written nothing then: FreeType's own routine goes on. */
#ifndef KHS_CLIENT_H_
#define KHS_CLIENT_H_

#include "afhints.h"
#include "kept.h"

#define AF_KHS_NONE   0
#define AF_KHS_CALLS  1
#define AF_KHS_ONE    2

  /* CJK's linking. */
  FT_LOCAL( FT_Int )
  af_khs_link( AF_GlyphHints  hints,
               AF_Dimension   dim );

  /* Building. */
  FT_LOCAL( FT_Int )
  af_khs_build( AF_GlyphHints  hints,
                AF_Dimension   dim,
                FT_Error*      error );

  /* All behind building, in one call. */
  FT_LOCAL( FT_Int )
  af_khs_fit_axis( AF_GlyphHints  hints,
                   AF_Dimension   dim );

  /* Blue zones, stems, the lowercase m and remaining edges. */
  FT_LOCAL( FT_Int )
  af_khs_hint_edges( AF_GlyphHints  hints,
                     AF_Dimension   dim );

  FT_LOCAL( FT_Int )
  af_khs_edge_points( AF_GlyphHints  hints,
                      AF_Dimension   dim );

  FT_LOCAL( FT_Int )
  af_khs_strong_points( AF_GlyphHints  hints,
                        AF_Dimension   dim );

  FT_LOCAL( FT_Int )
  af_khs_weak_points( AF_GlyphHints  hints,
                      AF_Dimension   dim );

  /* A stem's width by Keep or Snap, which every build has in place of FreeType's own rule. */
  FT_LOCAL( FT_Pos )
  af_khs_width( AF_GlyphHints  hints,
                AF_Dimension   dim,
                FT_Pos         width );

  /* Keeps FreeType's tables behind a step, where that is asked for. */
  FT_LOCAL( void )
  af_khs_seen( AF_GlyphHints  hints,
               AF_Dimension   dim,
               int            step );

#endif
